/** Powers modulo a number, a linear congruential generator, and a date of days, all in longs. */
public class Powers {
    static long power(long base, long exponent, long modulus) {
        long result = 1;
        long square = base % modulus;
        for (long rest = exponent; rest > 0; rest >>= 1) {
            if ((rest & 1) == 1) {
                result = result * square % modulus;
            }
            square = square * square % modulus;
        }
        return result;
    }

    static final class Generator {
        private long state;

        Generator(long seed) {
            state = (seed ^ 0x5DEECE66DL) & (1L << 48) - 1;
        }

        int next(int bits) {
            state = state * 0x5DEECE66DL + 0xBL & (1L << 48) - 1;
            return (int) (state >>> 48 - bits);
        }
    }

    static String date(long days) {
        long shifted = days + 719468;
        long era = (shifted >= 0 ? shifted : shifted - 146096) / 146097;
        long day = shifted - era * 146097;
        long year = (day - day / 1460 + day / 36524 - day / 146096) / 365;
        long rest = day - (365 * year + year / 4 - year / 100);
        long month = (5 * rest + 2) / 153;
        long of = rest - (153 * month + 2) / 5 + 1;
        return (year + era * 400 + (month >= 10 ? 1 : 0)) + "-" + (month < 10 ? month + 3 : month - 9) + "-" + of;
    }

    public static void main(String[] args) {
        System.out.println(power(3, 200, 1000000007L) + " " + power(2, 1L << 40, 998244353L) + " " + power(10, 18, 1000003));
        Generator generator = new Generator(42);
        for (int k = 0; k < 6; k++) {
            System.out.print(generator.next(32) + " ");
        }
        System.out.println(date(0) + " " + date(19782) + " " + date(-1) + " " + date(11016));
        java.util.Random random = new java.util.Random(42);
        System.out.println(random.nextInt() + " " + random.nextInt(10) + " " + random.nextLong());
    }
}
