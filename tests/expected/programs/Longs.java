import jop.Io;

/** Arithmetic of 64 bits. */
public class Longs {
    private static long seed = 0x123456789abcdefL;
    private long kept = -1L;

    private static void show(long value) {
        for (int shift = 56; shift >= 0; shift -= 8) {
            Io.write((int) (value >>> shift));
        }
    }

    private static long mixed(long a, long b, int shift) {
        return (a + b) ^ (a - b) ^ (a << shift) ^ (b >> shift) ^ (a >>> (64 - shift)) ^ (a & ~b) ^ (a | -b);
    }

    private long add(int delta) {
        kept += delta;
        return kept;
    }

    public static void main(String[] arguments) {
        show(mixed(seed, Long.MIN_VALUE, 13));
        long[] list = {1L, -1L, 1L << 40, seed};
        long sum = 0;
        for (int i = 0; i < list.length; i++) {
            sum += list[i];
            Io.write(sum > seed ? 'g' : sum == seed ? 'e' : 'l');
        }
        show(sum);
        show(new Longs().add(Integer.MIN_VALUE));
        Io.write((int) (sum >> 63));
    }
}
