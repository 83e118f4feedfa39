import jop.Io;

/** A long that wraps around, and a shift by all its bits. */
public class Wrapping {
    static long v = 9223372036854775807L;
    static int n = 64;

    public static void main(String[] arguments) {
        Io.write((int) (v + 1 >>> 56));
        Io.write((int) (1L << n));
    }
}
