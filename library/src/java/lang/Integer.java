package java.lang;

import jop.Digits;
import jop.EqualsMethod;
import jop.HashCodeMethod;
import jop.Longs;
import jop.Text;
import jop.ToTextMethod;

/** Methods on int, and an int as an object. */
public final class Integer extends Number implements Comparable<Integer>, EqualsMethod, HashCodeMethod, ToTextMethod {
    public static final int MIN_VALUE = 0x80000000;
    public static final int MAX_VALUE = 0x7fffffff;
    public static final int SIZE = 32;
    public static final int BYTES = 4;

    /** The objects from -128 to 127 that valueOf has made. */
    private static Integer[] made;

    private final int value;

    public Integer(int value) {
        this.value = value;
    }

    /** An object of the value; from -128 to 127 always the same one. */
    public static Integer valueOf(int value) {
        if (value < -128 || value > 127) {
            return new Integer(value);
        }
        if (made == null) {
            made = new Integer[256];
        }
        Integer found = made[value + 128];
        if (found == null) {
            found = new Integer(value);
            made[value + 128] = found;
        }
        return found;
    }

    public static Integer valueOf(String text) {
        return valueOf(parseInt(text));
    }

    public static Integer valueOf(Text text) {
        return valueOf(parseInt(text));
    }

    @Override
    public int intValue() {
        return value;
    }

    @Override
    public long longValue() {
        return value;
    }

    @Override
    public boolean equals(Object other) {
        return other instanceof Integer && ((Integer) other).value == value;
    }

    @Override
    public int hashCode() {
        return value;
    }

    @Override
    public int compareTo(Integer other) {
        return compare(value, other.value);
    }

    @Override
    public Text toText() {
        return toString(value);
    }

    public static Text toString(int value) {
        return Text.valueOf(value);
    }

    /** The digits in a base; in base 10 where the base is none of 2 to 36. */
    public static Text toString(int value, int base) {
        if (base < 2 || base > 36 || base == 10) {
            return Text.valueOf(value);
        }
        char[] digits = new char[33];
        int first = Digits.inBase(value, base, digits, 33);
        return new Text(digits, first, 33 - first);
    }

    public static Text toHexString(int value) {
        return ofBits(value, 4);
    }

    public static Text toOctalString(int value) {
        return ofBits(value, 3);
    }

    public static Text toBinaryString(int value) {
        return ofBits(value, 1);
    }

    private static Text ofBits(int value, int bits) {
        char[] digits = new char[32];
        int first = Digits.ofBits(value, bits, digits, 32);
        return new Text(digits, first, 32 - first);
    }

    public static int parseInt(String text) {
        return parseInt(Text.of(text), 10);
    }

    public static int parseInt(String text, int base) {
        return parseInt(Text.of(text), base);
    }

    public static int parseInt(Text text) {
        return parseInt(text, 10);
    }

    /** The number that a text of digits is, in a base of 2 to 36; NumberFormatException where it is none, or none of an int. */
    public static int parseInt(Text text, int base) {
        if (text == null || base < 2 || base > 36) {
            throw new NumberFormatException();
        }
        int length = text.length();
        boolean isNegative = length > 0 && text.charAt(0) == '-';
        int first = isNegative || length > 0 && text.charAt(0) == '+' ? 1 : 0;
        if (first == length) {
            throw new NumberFormatException();
        }
        int limit = isNegative ? MIN_VALUE : -MAX_VALUE;
        int least = limit / base;
        int negated = 0;
        for (int i = first; i < length; i++) { //@WCA loop=64 elements
            int digit = Character.digit(text.charAt(i), base);
            if (digit < 0 || negated < least || negated * base < limit + digit) {
                throw new NumberFormatException();
            }
            negated = negated * base - digit;
        }
        return isNegative ? negated : -negated;
    }

    public static int compare(int first, int second) {
        return first < second ? -1 : first == second ? 0 : 1;
    }

    public static int compareUnsigned(int first, int second) {
        return compare(first ^ MIN_VALUE, second ^ MIN_VALUE);
    }

    public static long toUnsignedLong(int value) {
        return value & 0xffffffffL;
    }

    public static int divideUnsigned(int dividend, int divisor) {
        return (int) Longs.divideUnsigned(toUnsignedLong(dividend), toUnsignedLong(divisor));
    }

    public static int remainderUnsigned(int dividend, int divisor) {
        return dividend - divideUnsigned(dividend, divisor) * divisor;
    }

    public static int hashCode(int value) {
        return value;
    }

    public static int min(int first, int second) {
        return first <= second ? first : second;
    }

    public static int max(int first, int second) {
        return first >= second ? first : second;
    }

    public static int sum(int first, int second) {
        return first + second;
    }

    public static int signum(int value) {
        return value >> 31 | -value >>> 31;
    }

    /** The number of bits that are 1. */
    public static int bitCount(int value) {
        int counts = value - (value >>> 1 & 0x55555555);
        counts = (counts & 0x33333333) + (counts >>> 2 & 0x33333333);
        counts = counts + (counts >>> 4) & 0x0f0f0f0f;
        return counts * 0x01010101 >>> 24;
    }

    public static int reverse(int value) {
        int bits = (value & 0x55555555) << 1 | value >>> 1 & 0x55555555;
        bits = (bits & 0x33333333) << 2 | bits >>> 2 & 0x33333333;
        bits = (bits & 0x0f0f0f0f) << 4 | bits >>> 4 & 0x0f0f0f0f;
        return reverseBytes(bits);
    }

    public static int reverseBytes(int value) {
        return value << 24 | (value & 0xff00) << 8 | value >>> 8 & 0xff00 | value >>> 24;
    }

    public static int highestOneBit(int value) {
        return value & MIN_VALUE >>> numberOfLeadingZeros(value);
    }

    public static int lowestOneBit(int value) {
        return value & -value;
    }

    public static int numberOfLeadingZeros(int value) {
        int bits = value;
        bits |= bits >>> 1;
        bits |= bits >>> 2;
        bits |= bits >>> 4;
        bits |= bits >>> 8;
        bits |= bits >>> 16;
        return bitCount(~bits);
    }

    public static int numberOfTrailingZeros(int value) {
        return bitCount((value & -value) - 1);
    }

    public static int rotateLeft(int value, int distance) {
        return value << distance | value >>> -distance;
    }

    public static int rotateRight(int value, int distance) {
        return value >>> distance | value << -distance;
    }
}
