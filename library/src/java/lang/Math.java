package java.lang;

import jop.Longs;

/** The methods of Math on int and long. */
public final class Math {
    private static final int GREATEST = 0x7fffffff;
    private static final int LEAST = 0x80000000;
    private static final long GREATEST_LONG = 0x7fffffffffffffffL;
    private static final long LEAST_LONG = 0x8000000000000000L;

    private Math() {
    }

    public static int abs(int value) {
        return value < 0 ? -value : value;
    }

    public static long abs(long value) {
        return value < 0 ? -value : value;
    }

    public static int min(int first, int second) {
        return first <= second ? first : second;
    }

    public static long min(long first, long second) {
        return first <= second ? first : second;
    }

    public static int max(int first, int second) {
        return first >= second ? first : second;
    }

    public static long max(long first, long second) {
        return first >= second ? first : second;
    }

    /** The quotient, rounded down. */
    public static int floorDiv(int dividend, int divisor) {
        int quotient = dividend / divisor;
        return (dividend ^ divisor) < 0 && quotient * divisor != dividend ? quotient - 1 : quotient;
    }

    /** The quotient, rounded down. */
    public static long floorDiv(long dividend, long divisor) {
        long quotient = Longs.divide(dividend, divisor);
        return (dividend ^ divisor) < 0 && Longs.multiply(quotient, divisor) != dividend ? quotient - 1 : quotient;
    }

    /** What is left of the dividend, with the sign of the divisor. */
    public static int floorMod(int dividend, int divisor) {
        int rest = dividend % divisor;
        return (rest ^ divisor) < 0 && rest != 0 ? rest + divisor : rest;
    }

    /** What is left of the dividend, with the sign of the divisor. */
    public static long floorMod(long dividend, long divisor) {
        long rest = Longs.remainder(dividend, divisor);
        return (rest ^ divisor) < 0 && rest != 0 ? rest + divisor : rest;
    }

    public static int addExact(int first, int second) {
        int sum = first + second;
        check(((first ^ sum) & (second ^ sum)) >= 0);
        return sum;
    }

    public static long addExact(long first, long second) {
        long sum = first + second;
        checkLong(((first ^ sum) & (second ^ sum)) >= 0);
        return sum;
    }

    public static int subtractExact(int first, int second) {
        int difference = first - second;
        check(((first ^ second) & (first ^ difference)) >= 0);
        return difference;
    }

    public static long subtractExact(long first, long second) {
        long difference = first - second;
        checkLong(((first ^ second) & (first ^ difference)) >= 0);
        return difference;
    }

    public static int multiplyExact(int first, int second) {
        long product = Longs.multiply(first, second);
        check((int) product == product);
        return (int) product;
    }

    public static long multiplyExact(long first, long second) {
        long product = Longs.multiply(first, second);
        boolean exceeds = second == -1 ? first == LEAST_LONG : second != 0 && Longs.divide(product, second) != first;
        checkLong(!exceeds);
        return product;
    }

    public static int incrementExact(int value) {
        check(value != GREATEST);
        return value + 1;
    }

    public static long incrementExact(long value) {
        checkLong(value != GREATEST_LONG);
        return value + 1;
    }

    public static int decrementExact(int value) {
        check(value != LEAST);
        return value - 1;
    }

    public static long decrementExact(long value) {
        checkLong(value != LEAST_LONG);
        return value - 1;
    }

    public static int negateExact(int value) {
        check(value != LEAST);
        return -value;
    }

    public static long negateExact(long value) {
        checkLong(value != LEAST_LONG);
        return -value;
    }

    public static int toIntExact(long value) {
        check((int) value == value);
        return (int) value;
    }

    private static void check(boolean isExact) {
        if (!isExact) {
            throw new ArithmeticException("integer overflow");
        }
    }

    private static void checkLong(boolean isExact) {
        if (!isExact) {
            throw new ArithmeticException("long overflow");
        }
    }
}
