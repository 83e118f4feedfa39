/** Numbers: long arithmetic, shifts, comparisons, switches within one another, and characters and bytes in arrays. */
public class Sums {
    static final long MASK = 0x00ff00ff00ff00ffL;
    static final char FIRST = 'a';
    static long state = 9223372036854775807L;
    static byte[] bytes = new byte[16];
    static boolean[] seen = new boolean[4];
    static short[] shorts = { 1, -2, 300 };
    static long[] longs = { 1L, -1L, MASK };

    static long mix(long a, int by) {
        long b = (a << by) ^ (a >>> (64 - by)) ^ (a >> 3);
        b |= MASK & ~a;
        return -b + (a - b);
    }

    static int kind(int c, boolean strict) {
        switch (c) {
            case 'a': case 'b': case 'c':
                switch (c - FIRST) {
                    case 0: return strict ? 1 : 2;
                    case 1: break;
                    default: return 3;
                }
            case 1000000: return 4;
            case -5:
                int left = 10;
                while (true) {
                    if (--left == c) { break; }
                    if (left < 0) { return left; }
                }
            default: return c > 0 ? 5 : 6;
        }
    }

    static int units(String text) {
        int sum = 0;
        for (int i = 0, n = text.length(); i < n; i++) {
            char unit = text.charAt(i);
            bytes[i & 15] = (byte) unit;
            sum = sum * 31 + (short) unit + (seen[i & 3] ? 1 : 0);
            seen[unit & 3] = !seen[unit & 3] || strict(unit);
        }
        return sum;
    }

    static boolean strict(int n) { return n % 2 == 0 && (n > 4 || n < -4) && state != 0L; }

    public static void main(String[] args) {
        for (int i = 0; i < longs.length; i++) {
            state += mix(longs[i], i + 1) + shorts[i];
            longs[i] ^= state;
            if (longs[i] >= 0L) { shorts[i] += (int) (state >> 56); } else { state--; }
        }
        do { state = state + kind((int) state, strict((int) state)); } while (state < 0L);
        long[] more = new long[units("sums of numbers") & 7];
        for (long item : longs) { if (more.length > 0) { more[0] = item == state ? item : more[0] + item; } }
    }
}
