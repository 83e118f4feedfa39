/** A product of longs, which the linker refuses. */
public class Scale {
    static long scaled(long value, long factor) {
        if (value > factor) {
            return value
                * factor;
        }
        return value;
    }

    public static void main(String[] arguments) {
        jop.Io.write((int) scaled(2, 3));
    }
}
