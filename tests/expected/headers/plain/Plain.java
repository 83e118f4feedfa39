/** A class that is compiled without tables of lines. */
public class Plain {
    static void loop(int n) {
        for (int i = 0; i < n; i++) {
            jop.Io.write(i);
        }
    }

    static void counts() {
        for (int i = 0; i < 7; i++) {
            jop.Io.write(i);
        }
    }
}
