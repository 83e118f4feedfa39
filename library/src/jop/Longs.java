package jop;

/** Products and quotients of longs, for lmul, ldiv and lrem (Java Language Specification SE 8, 15.17). */
public final class Longs {
    private static final int TOP = 0x80000000;

    private Longs() {
    }

    /** The low 64 bits of the product, of products of halves of words. */
    public static long multiply(long first, long second) {
        int word = (int) first;
        int other = (int) second;
        int low = word & 0xffff;
        int high = word >>> 16;
        int otherLow = other & 0xffff;
        int otherHigh = other >>> 16;
        int lowest = low * otherLow;
        int middle = high * otherLow + (lowest >>> 16);
        int next = low * otherHigh + (middle & 0xffff);
        int highest = high * otherHigh + (middle >>> 16) + (next >>> 16);
        int crossed = (int) (first >>> 32) * other + word * (int) (second >>> 32);
        return (long) (highest + crossed) << 32 | (next << 16 | lowest & 0xffff) & 0xffffffffL;
    }

    /** The quotient, rounded towards 0; that of the least long and -1 is the least long. */
    public static long divide(long dividend, long divisor) {
        long quotient = divideUnsigned(dividend < 0 ? -dividend : dividend, divisor < 0 ? -divisor : divisor);
        return (dividend ^ divisor) < 0 ? -quotient : quotient;
    }

    /** What is left of the dividend, with its sign. */
    public static long remainder(long dividend, long divisor) {
        return dividend - multiply(divide(dividend, divisor), divisor);
    }

    /** The quotient of unsigned numbers. */
    public static long divideUnsigned(long dividend, long divisor) {
        int high = (int) (dividend >>> 32);
        int low = (int) dividend;
        int divisorHigh = (int) (divisor >>> 32);
        int divisorLow = (int) divisor;
        if (divisorHigh < 0) {
            return divisorHigh <= high && high < 0 && dividend >= divisor ? 1 : 0;
        }
        if (divisorHigh > 0) {
            return divideByLong(0, high, low, divisorHigh, divisorLow);
        }
        if (divisorLow > 0) {
            long first = divideByWord(0, high, divisorLow);
            return first << 32 | divideByWord((int) (first >>> 32), low, divisorLow) & 0xffffffffL;
        }
        if (divisorLow == 0) {
            throw new ArithmeticException("/ by zero");
        }
        boolean isLess = (high ^ TOP) < (divisorLow ^ TOP);
        long first = isLess ? 0 : 1L << 32;
        return first | divideByLong(0, isLess ? high : high - divisorLow, low, 0, divisorLow);
    }

    /** What is left of an unsigned dividend. */
    public static long remainderUnsigned(long dividend, long divisor) {
        return dividend - multiply(divideUnsigned(dividend, divisor), divisor);
    }

    /** Of two words and a positive word, where the high one is below it: the remainder in front of the quotient. */
    private static long divideByWord(int high, int low, int divisor) {
        int remainder = high;
        int word = low;
        for (int bits = 32; bits != 0; bits = bits - 1) { //@WCA loop=32
            remainder = remainder << 1 | word >>> 31;
            word <<= 1;
            int rest = remainder - divisor;
            if (rest >= 0) {
                remainder = rest;
                word |= 1;
            }
        }
        return (long) remainder << 32 | word & 0xffffffffL;
    }

    /** The quotient, a word without sign, of three words and two, where the two high words are below the divisor and its sign is 0. */
    private static long divideByLong(int high, int low, int word, int divisorHigh, int divisorLow) {
        int top = TOP;
        int compared = divisorLow ^ top;
        for (int bits = 32; bits != 0; bits = bits - 1) { //@WCA loop=32
            high = high << 1 | low >>> 31;
            low = low << 1 | word >>> 31;
            word <<= 1;
            int rest = high - divisorHigh;
            if ((low ^ top) < compared) {
                rest = rest - 1;
            }
            if (rest >= 0) {
                high = rest;
                low -= divisorLow;
                word |= 1;
            }
        }
        return word & 0xffffffffL;
    }
}
