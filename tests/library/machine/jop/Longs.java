package jop;

/** What a virtual machine does for the library's class of this name. */
public final class Longs {
    public static long multiply(long first, long second) {
        return first * second;
    }

    public static long divide(long dividend, long divisor) {
        return dividend / divisor;
    }

    public static long remainder(long dividend, long divisor) {
        return dividend % divisor;
    }

    public static long divideUnsigned(long dividend, long divisor) {
        return Long.divideUnsigned(dividend, divisor);
    }

    public static long remainderUnsigned(long dividend, long divisor) {
        return Long.remainderUnsigned(dividend, divisor);
    }
}
