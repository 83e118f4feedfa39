public class Statics {
    static int first = 7;
    static final long big = -2L;
    static final byte small = -3;
    static long later;
    static final String text = "one";
    static int last;
    public static void main(String[] args) { later = 1L << 40; last = text.length(); jop.Io.write((int) (later >> 33) + last + small); }
}
