/** Products, quotients and remainders of longs on all pairs of edges, and compound assignment. */
public class LongEdges {
    static final long[] EDGES = {0, 1, -1, 2, -2, 3, 7, -10, 255, 65536, -65537, 2147483647L, -2147483648L, 2147483648L, 4294967295L, 4294967296L,
        -4294967297L, 1000000007L, 6700417L * 641, Long.MAX_VALUE, Long.MIN_VALUE, Long.MAX_VALUE - 1, Long.MIN_VALUE + 1, 0x123456789abcdefL};

    static long mix(long sum, long value) {
        return (sum << 5 | sum >>> 59) ^ value;
    }

    static long quotients(long x, long y) {
        try {
            return mix(x / y, x % y);
        } catch (ArithmeticException e) {
            return 12345;
        }
    }

    static void put(long value) {
        for (int shift = 56; shift >= 0; shift -= 8) {
            jop.Io.write((int) (value >> shift));
        }
    }

    public static void main(String[] args) {
        for (long x : EDGES) {
            long sum = 0;
            for (long y : EDGES) {
                sum = mix(sum, x * y);
                sum = mix(sum, quotients(x, y));
            }
            put(sum);
        }
        long value = 1;
        for (int k = 1; k < 25; k++) {
            value *= k;
            value %= 9223372036854775783L;
            value /= k % 3 == 0 ? -2 : 1;
        }
        put(value);
        long[] cells = {5, 6};
        cells[1] *= cells[0]--;
        cells[0] %= 3;
        put(cells[1] * 100 + cells[0]);
        put(-7L / 2);
        put(-7L % 2 + value % 10);
    }
}
