package java.lang;

import jop.Digits;
import jop.EqualsMethod;
import jop.HashCodeMethod;
import jop.Longs;
import jop.Text;
import jop.ToTextMethod;

/** Methods on long, and a long as an object. */
public final class Long extends Number implements Comparable<Long>, EqualsMethod, HashCodeMethod, ToTextMethod {
    public static final long MIN_VALUE = 0x8000000000000000L;
    public static final long MAX_VALUE = 0x7fffffffffffffffL;
    public static final int SIZE = 64;
    public static final int BYTES = 8;

    /** The objects from -128 to 127 that valueOf has made. */
    private static Long[] made;

    private final long value;

    public Long(long value) {
        this.value = value;
    }

    /** An object of the value; from -128 to 127 always the same one. */
    public static Long valueOf(long value) {
        if (value < -128 || value > 127) {
            return new Long(value);
        }
        if (made == null) {
            made = new Long[256];
        }
        int place = (int) value + 128;
        Long found = made[place];
        if (found == null) {
            found = new Long(value);
            made[place] = found;
        }
        return found;
    }

    public static Long valueOf(String text) {
        return valueOf(parseLong(text));
    }

    public static Long valueOf(Text text) {
        return valueOf(parseLong(text));
    }

    @Override
    public int intValue() {
        return (int) value;
    }

    @Override
    public long longValue() {
        return value;
    }

    @Override
    public boolean equals(Object other) {
        return other instanceof Long && ((Long) other).value == value;
    }

    @Override
    public int hashCode() {
        return hashCode(value);
    }

    @Override
    public int compareTo(Long other) {
        return compare(value, other.value);
    }

    @Override
    public Text toText() {
        return toString(value);
    }

    public static Text toString(long value) {
        return Text.valueOf(value);
    }

    /** The digits in a base; in base 10 where the base is none of 2 to 36. */
    public static Text toString(long value, int base) {
        if (base < 2 || base > 36 || base == 10) {
            return Text.valueOf(value);
        }
        char[] digits = new char[65];
        int first = Digits.inBase(value, base, digits, 65);
        return new Text(digits, first, 65 - first);
    }

    public static Text toHexString(long value) {
        return ofBits(value, 4);
    }

    public static Text toOctalString(long value) {
        return ofBits(value, 3);
    }

    public static Text toBinaryString(long value) {
        return ofBits(value, 1);
    }

    private static Text ofBits(long value, int bits) {
        char[] digits = new char[64];
        int first = Digits.ofBits(value, bits, digits, 64);
        return new Text(digits, first, 64 - first);
    }

    public static long parseLong(String text) {
        return parseLong(Text.of(text), 10);
    }

    public static long parseLong(String text, int base) {
        return parseLong(Text.of(text), base);
    }

    public static long parseLong(Text text) {
        return parseLong(text, 10);
    }

    /** The number that a text of digits is, in a base of 2 to 36; NumberFormatException where it is none, or none of a long. */
    public static long parseLong(Text text, int base) {
        if (text == null || base < 2 || base > 36) {
            throw new NumberFormatException();
        }
        int length = text.length();
        boolean isNegative = length > 0 && text.charAt(0) == '-';
        int first = isNegative || length > 0 && text.charAt(0) == '+' ? 1 : 0;
        if (first == length) {
            throw new NumberFormatException();
        }
        long limit = isNegative ? MIN_VALUE : -MAX_VALUE;
        long least = Longs.divide(limit, base);
        long negated = 0;
        for (int i = first; i < length; i++) { //@WCA loop=64 elements
            int digit = Character.digit(text.charAt(i), base);
            if (digit < 0 || negated < least) {
                throw new NumberFormatException();
            }
            long product = Longs.multiply(negated, base);
            if (product < limit + digit) {
                throw new NumberFormatException();
            }
            negated = product - digit;
        }
        return isNegative ? negated : -negated;
    }

    public static int compare(long first, long second) {
        return first < second ? -1 : first == second ? 0 : 1;
    }

    public static int compareUnsigned(long first, long second) {
        return compare(first ^ MIN_VALUE, second ^ MIN_VALUE);
    }

    public static long divideUnsigned(long dividend, long divisor) {
        return Longs.divideUnsigned(dividend, divisor);
    }

    public static long remainderUnsigned(long dividend, long divisor) {
        return Longs.remainderUnsigned(dividend, divisor);
    }

    public static int hashCode(long value) {
        return (int) (value ^ value >>> 32);
    }

    public static long min(long first, long second) {
        return first <= second ? first : second;
    }

    public static long max(long first, long second) {
        return first >= second ? first : second;
    }

    public static long sum(long first, long second) {
        return first + second;
    }

    public static int signum(long value) {
        return (int) (value >> 63 | -value >>> 63);
    }

    /** The number of bits that are 1. */
    public static int bitCount(long value) {
        return Integer.bitCount((int) (value >>> 32)) + Integer.bitCount((int) value);
    }

    public static long reverse(long value) {
        return longOf(Integer.reverse((int) value), Integer.reverse((int) (value >>> 32)));
    }

    public static long reverseBytes(long value) {
        return longOf(Integer.reverseBytes((int) value), Integer.reverseBytes((int) (value >>> 32)));
    }

    private static long longOf(int high, int low) {
        return (long) high << 32 | low & 0xffffffffL;
    }

    public static long highestOneBit(long value) {
        return value & MIN_VALUE >>> numberOfLeadingZeros(value);
    }

    public static long lowestOneBit(long value) {
        return value & -value;
    }

    public static int numberOfLeadingZeros(long value) {
        int high = (int) (value >>> 32);
        return high == 0 ? 32 + Integer.numberOfLeadingZeros((int) value) : Integer.numberOfLeadingZeros(high);
    }

    public static int numberOfTrailingZeros(long value) {
        int low = (int) value;
        return low == 0 ? 32 + Integer.numberOfTrailingZeros((int) (value >>> 32)) : Integer.numberOfTrailingZeros(low);
    }

    public static long rotateLeft(long value, int distance) {
        return value << distance | value >>> -distance;
    }

    public static long rotateRight(long value, int distance) {
        return value >>> distance | value << -distance;
    }
}
