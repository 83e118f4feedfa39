import jop.Io;

/** Puts the input out, each byte with its bits turned, until its end. */
public class Echo {
    public static void main(String[] arguments) {
        int count = 0;
        for (;;) {
            int b = Io.read();
            if (b == -1) {
                break;
            }
            Io.write(~b);
            count++;
        }
        Io.write(count);
        Io.write(Io.read());
    }
}
