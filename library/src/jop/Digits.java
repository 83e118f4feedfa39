package jop;

/** Digits of numbers, put into an array of chars from its end towards its front. */
public final class Digits {
    private Digits() {
    }

    /** The char of a digit below 36. */
    public static char of(int digit) {
        return (char) (digit < 10 ? '0' + digit : 'a' - 10 + digit);
    }

    /** Puts the decimal digits, behind a sign where there is one, before a place, and gives the place of the first char: at most 11 chars. */
    public static int decimal(int value, char[] to, int end) {
        int rest = value < 0 ? -value : value;
        int at = end;
        while (rest < 0 || rest > 9) { //@WCA loop=9
            int tenth = tenth(rest);
            to[--at] = (char) ('0' + rest - tenth * 10);
            rest = tenth;
        }
        to[--at] = (char) ('0' + rest);
        if (value < 0) {
            to[--at] = '-';
        }
        return at;
    }

    /** A tenth of an unsigned word, rounded down (Warren, Hacker's Delight, 10-14). */
    private static int tenth(int value) {
        int sum = (value >>> 1) + (value >>> 2);
        sum += sum >>> 4;
        sum += sum >>> 8;
        sum += sum >>> 16;
        int tenth = sum >>> 3;
        return value - tenth * 10 > 9 ? tenth + 1 : tenth;
    }

    /** The same of a long: at most 20 chars. */
    public static int decimal(long value, char[] to, int end) {
        long rest = value < 0 ? -value : value;
        int at = end;
        while (rest < 0 || rest > 9) { //@WCA loop=18
            long tenth = tenth(rest);
            to[--at] = (char) ('0' + (int) rest - (int) tenth * 10);
            rest = tenth;
        }
        to[--at] = (char) ('0' + (int) rest);
        if (value < 0) {
            to[--at] = '-';
        }
        return at;
    }

    private static long tenth(long value) {
        long sum = (value >>> 1) + (value >>> 2);
        sum += sum >>> 4;
        sum += sum >>> 8;
        sum += sum >>> 16;
        sum += sum >>> 32;
        long tenth = sum >>> 3;
        int rest = (int) value - (int) tenth * 10;
        return rest > 9 ? tenth + 1 : tenth;
    }

    /** Puts the digits in a base of 2 to 36, behind a sign where there is one: at most 33 chars. */
    public static int inBase(int value, int base, char[] to, int end) {
        int rest = value < 0 ? value : -value;
        int at = end;
        while (rest <= -base) { //@WCA loop=31
            int quotient = rest / base;
            to[--at] = of(quotient * base - rest);
            rest = quotient;
        }
        to[--at] = of(-rest);
        if (value < 0) {
            to[--at] = '-';
        }
        return at;
    }

    /** The same of a long: at most 65 chars. */
    public static int inBase(long value, int base, char[] to, int end) {
        long rest = value < 0 ? -value : value;
        int at = end;
        while (rest < 0 || rest >= base) { //@WCA loop=63
            long quotient = Longs.divideUnsigned(rest, base);
            to[--at] = of((int) rest - (int) quotient * base);
            rest = quotient;
        }
        to[--at] = of((int) rest);
        if (value < 0) {
            to[--at] = '-';
        }
        return at;
    }

    /** Puts the digits of an unsigned word, each of which has so many bits: 1, 3 or 4. */
    public static int ofBits(int value, int bits, char[] to, int end) {
        int rest = value;
        int at = end;
        int mask = (1 << bits) - 1;
        to[--at] = of(rest & mask);
        while ((rest >>>= bits) != 0) { //@WCA loop=31
            to[--at] = of(rest & mask);
        }
        return at;
    }

    /** The same of an unsigned long. */
    public static int ofBits(long value, int bits, char[] to, int end) {
        long rest = value;
        int at = end;
        int mask = (1 << bits) - 1;
        to[--at] = of((int) rest & mask);
        while ((rest >>>= bits) != 0) { //@WCA loop=63
            to[--at] = of((int) rest & mask);
        }
        return at;
    }
}
