package java.math;

import jop.Arrays;
import jop.Digits16;
import jop.EqualsMethod;
import jop.HashCodeMethod;
import jop.Text;
import jop.ToTextMethod;

/** Whole numbers of any length. A bound of what they do holds of numbers of at most 64 digits of 16 bits. */
public class BigInteger extends Number implements Comparable<BigInteger>, EqualsMethod, HashCodeMethod, ToTextMethod {
    public static final BigInteger ZERO = new BigInteger(0, new int[0]);
    public static final BigInteger ONE = valueOf(1);
    public static final BigInteger TEN = valueOf(10);
    public static final BigInteger TWO = valueOf(2);
    private static final int AND = 0;
    private static final int OR = 1;
    private static final int XOR = 2;
    private static final int AND_NOT = 3;

    private final int sign;
    /** The number without its sign. */
    private final int[] digits;

    private BigInteger(int sign, int[] digits) {
        this.sign = digits.length == 0 ? 0 : sign;
        this.digits = digits;
    }

    public BigInteger(String string) {
        this(string, 10);
    }

    /** The number of digits of a base, with a sign or none in front. */
    public BigInteger(String string, int base) {
        int length = string.length();
        if (length == 0 || base < Character.MIN_RADIX || base > Character.MAX_RADIX) {
            throw new NumberFormatException();
        }
        char first = string.charAt(0);
        int from = first == '-' || first == '+' ? 1 : 0;
        if (from == length) {
            throw new NumberFormatException();
        }
        digits = Digits16.trimmed(base == 16 ? ofHexadecimal(string, from) : ofBase(string, from, base));
        sign = digits.length == 0 ? 0 : first == '-' ? -1 : 1;
    }

    private static int digit(char each, int base) {
        int digit = Character.digit(each, base);
        if (digit < 0) {
            throw new NumberFormatException();
        }
        return digit;
    }

    private static int[] ofHexadecimal(String string, int from) {
        int count = string.length() - from;
        int[] digits = new int[count + 3 >> 2];
        for (int i = 0; i < count; i++) { //@WCA loop=64 elements
            digits[i >> 2] |= digit(string.charAt(from + count - 1 - i), 16) << 4 * (i & 3);
        }
        return digits;
    }

    private static int[] ofBase(String string, int from, int base) {
        int[] digits = new int[0];
        int length = string.length();
        for (int i = from; i < length; i++) { //@WCA loop=64 elements
            digits = Digits16.multiply(digits, base, digit(string.charAt(i), base));
        }
        return digits;
    }

    /** The number of bytes in two's complement, the highest first. */
    public BigInteger(byte[] bytes) {
        if (bytes.length == 0) {
            throw new NumberFormatException();
        }
        boolean isNegative = bytes[0] < 0;
        int[] read = ofBytes(bytes, isNegative ? 0xff : 0);
        digits = isNegative ? Digits16.add(read, Digits16.of(1)) : read;
        sign = digits.length == 0 ? 0 : isNegative ? -1 : 1;
    }

    /** The number of a sign and of bytes without one, the highest first. */
    public BigInteger(int sign, byte[] bytes) {
        digits = ofBytes(bytes, 0);
        if (sign < -1 || sign > 1 || sign == 0 && digits.length > 0) {
            throw new NumberFormatException();
        }
        this.sign = digits.length == 0 ? 0 : sign;
    }

    private static int[] ofBytes(byte[] bytes, int change) {
        int[] digits = new int[bytes.length + 1 >> 1];
        for (int i = 0; i < bytes.length; i++) { //@WCA loop=64 elements
            digits[i >> 1] |= ((bytes[bytes.length - 1 - i] ^ change) & 0xff) << 8 * (i & 1);
        }
        return Digits16.trimmed(digits);
    }

    public static BigInteger valueOf(long value) {
        return new BigInteger(value < 0 ? -1 : 1, Digits16.of(value < 0 ? -value : value));
    }

    public int signum() {
        return sign;
    }

    public BigInteger negate() {
        return new BigInteger(-sign, digits);
    }

    public BigInteger abs() {
        return sign < 0 ? negate() : this;
    }

    public BigInteger add(BigInteger other) {
        if (sign * other.sign >= 0) {
            return new BigInteger(sign == 0 ? other.sign : sign, Digits16.add(digits, other.digits));
        }
        return Digits16.compare(digits, other.digits) < 0 ? new BigInteger(other.sign, Digits16.subtract(other.digits, digits))
            : new BigInteger(sign, Digits16.subtract(digits, other.digits));
    }

    public BigInteger subtract(BigInteger other) {
        return add(other.negate());
    }

    public BigInteger multiply(BigInteger other) {
        return new BigInteger(sign * other.sign, Digits16.multiply(digits, other.digits));
    }

    private int[][] divided(BigInteger other) {
        if (other.sign == 0) {
            throw new ArithmeticException();
        }
        return Digits16.divide(digits, other.digits);
    }

    public BigInteger divide(BigInteger other) {
        return new BigInteger(sign * other.sign, divided(other)[0]);
    }

    public BigInteger remainder(BigInteger other) {
        return new BigInteger(sign, divided(other)[1]);
    }

    public BigInteger[] divideAndRemainder(BigInteger other) {
        int[][] both = divided(other);
        return new BigInteger[] {new BigInteger(sign * other.sign, both[0]), new BigInteger(sign, both[1])};
    }

    /** The remainder that isn't negative. */
    public BigInteger mod(BigInteger other) {
        if (other.sign <= 0) {
            throw new ArithmeticException();
        }
        BigInteger rest = remainder(other);
        return rest.sign < 0 ? rest.add(other) : rest;
    }

    public BigInteger pow(int exponent) {
        if (exponent < 0) {
            throw new ArithmeticException();
        }
        BigInteger power = ONE;
        for (int bit = 32 - Integer.numberOfLeadingZeros(exponent) - 1; bit >= 0; bit--) { //@WCA loop=31
            power = power.multiply(power);
            power = (exponent >>> bit & 1) == 0 ? power : power.multiply(this);
        }
        return power;
    }

    /** This to a power, modulo a number; the inverse to one where the exponent is negative. */
    public BigInteger modPow(BigInteger exponent, BigInteger modulus) {
        if (modulus.sign <= 0) {
            throw new ArithmeticException();
        }
        BigInteger base = exponent.sign < 0 ? modInverse(modulus) : mod(modulus);
        BigInteger power = ONE.mod(modulus);
        for (int i = exponent.digits.length - 1; i >= 0; i--) { //@WCA loop=64 elements
            power = power.raised(exponent.digits[i], base, modulus);
        }
        return power;
    }

    /** Goes on with 16 bits of an exponent, the highest first. */
    private BigInteger raised(int bits, BigInteger base, BigInteger modulus) {
        BigInteger power = this;
        for (int bit = 15; bit >= 0; bit--) { //@WCA loop=16
            power = power.multiply(power).mod(modulus);
            power = (bits >>> bit & 1) == 0 ? power : power.multiply(base).mod(modulus);
        }
        return power;
    }

    /**
     * The greatest number that divides both. A division takes away at least as much as in Fibonacci's numbers, so 25 of them are enough for each digit
     * of 16 bits (Knuth, The Art of Computer Programming 4.5.3, L).
     */
    public BigInteger gcd(BigInteger other) {
        BigInteger first = abs();
        BigInteger second = other.abs();
        for (int i = other.digits.length; i > 0; i--) { //@WCA loop=64 elements
            for (int k = 0; k < 25 && second.sign != 0; k++) { //@WCA loop=25
                BigInteger rest = first.remainder(second);
                first = second;
                second = rest;
            }
        }
        return first;
    }

    /** The number from 0 to a modulus by which this one is 1 modulo that. Raises ArithmeticException where there is none. */
    public BigInteger modInverse(BigInteger modulus) {
        BigInteger first = modulus;
        BigInteger second = mod(modulus);
        BigInteger ofFirst = ZERO;
        BigInteger ofSecond = ONE;
        for (int i = modulus.digits.length; i > 0; i--) { //@WCA loop=64 elements
            for (int k = 0; k < 25 && second.sign != 0; k++) { //@WCA loop=25
                BigInteger[] both = first.divideAndRemainder(second);
                first = second;
                second = both[1];
                BigInteger next = ofFirst.subtract(both[0].multiply(ofSecond));
                ofFirst = ofSecond;
                ofSecond = next;
            }
        }
        if (!first.equals(ONE)) {
            throw new ArithmeticException();
        }
        return ofFirst.mod(modulus);
    }

    public BigInteger and(BigInteger other) {
        return joined(other, AND);
    }

    public BigInteger or(BigInteger other) {
        return joined(other, OR);
    }

    public BigInteger xor(BigInteger other) {
        return joined(other, XOR);
    }

    public BigInteger andNot(BigInteger other) {
        return joined(other, AND_NOT);
    }

    public BigInteger not() {
        return negate().subtract(ONE);
    }

    /** Both in two's complement, bit by bit. */
    private BigInteger joined(BigInteger other, int way) {
        boolean isNegative = joined(sign >> 1, other.sign >> 1, way) < 0;
        int[] made = new int[Math.max(digits.length, other.digits.length)];
        for (int i = 0; i < made.length; i++) { //@WCA loop=64 elements
            int word = joined(word(i), other.word(i), way);
            made[i] = (isNegative ? ~word : word) & 0xffff;
        }
        int[] trimmed = Digits16.trimmed(made);
        return isNegative ? new BigInteger(-1, Digits16.add(trimmed, Digits16.of(1))) : new BigInteger(1, trimmed);
    }

    private static int joined(int bits, int others, int way) {
        return way == AND ? bits & others : way == OR ? bits | others : way == XOR ? bits ^ others : bits & ~others;
    }

    public BigInteger setBit(int place) {
        return or(ofBit(place));
    }

    public BigInteger clearBit(int place) {
        return andNot(ofBit(place));
    }

    public BigInteger flipBit(int place) {
        return xor(ofBit(place));
    }

    private static BigInteger ofBit(int place) {
        if (place < 0) {
            throw new ArithmeticException();
        }
        return ONE.shiftLeft(place);
    }

    /** The place of the lowest 1; -1 of 0. */
    public int getLowestSetBit() {
        for (int i = 0; i < digits.length; i++) { //@WCA loop=64 elements
            if (digits[i] != 0) {
                return 16 * i + Integer.numberOfTrailingZeros(digits[i]);
            }
        }
        return -1;
    }

    /** How many bits of it in two's complement differ from its sign. */
    public int bitCount() {
        int[] counted = sign < 0 ? Digits16.subtract(digits, Digits16.of(1)) : digits;
        int count = 0;
        for (int i = 0; i < counted.length; i++) { //@WCA loop=64 elements
            count += Integer.bitCount(counted[i]);
        }
        return count;
    }

    public int intValueExact() {
        checkBits(31);
        return intValue();
    }

    public long longValueExact() {
        checkBits(63);
        return longValue();
    }

    public short shortValueExact() {
        checkBits(15);
        return shortValue();
    }

    public byte byteValueExact() {
        checkBits(7);
        return byteValue();
    }

    private void checkBits(int count) {
        if (bitLength() > count) {
            throw new ArithmeticException();
        }
    }

    public int compareTo(BigInteger other) {
        return sign != other.sign ? (sign < other.sign ? -1 : 1) : sign * Digits16.compare(digits, other.digits);
    }

    public BigInteger max(BigInteger other) {
        return compareTo(other) > 0 ? this : other;
    }

    public BigInteger min(BigInteger other) {
        return compareTo(other) < 0 ? this : other;
    }

    @Override
    public boolean equals(Object other) {
        return other instanceof BigInteger && compareTo((BigInteger) other) == 0;
    }

    @Override
    public int hashCode() {
        int hash = 0;
        for (int i = digits.length - 1 >> 1; i >= 0; i--) { //@WCA loop=32 halves
            hash = 31 * hash + (digits[2 * i] | (2 * i + 1 < digits.length ? digits[2 * i + 1] << 16 : 0));
        }
        return hash * sign;
    }

    /** How many bits it has in two's complement, without the sign. */
    public int bitLength() {
        int bits = Digits16.bits(digits);
        return sign < 0 && !Digits16.hasLow(digits, bits - 1) ? bits - 1 : bits;
    }

    /** Whether a bit of it in two's complement is 1. */
    public boolean testBit(int place) {
        if (place < 0) {
            throw new ArithmeticException();
        }
        return (word(place >> 4) >>> (place & 15) & 1) != 0;
    }

    /** 16 bits of it in two's complement. */
    private int word(int place) {
        int digit = place < digits.length ? digits[place] : 0;
        return sign >= 0 ? digit : (Digits16.hasLow(digits, 16 * place) ? ~digit : -digit) & 0xffff;
    }

    public BigInteger shiftLeft(int count) {
        return count < 0 ? shiftRight(-count) : new BigInteger(sign, Digits16.shiftLeft(digits, count));
    }

    /** Shifts towards the lowest bit, rounding down. */
    public BigInteger shiftRight(int count) {
        if (count < 0) {
            return shiftLeft(-count);
        }
        BigInteger shifted = new BigInteger(sign, Digits16.shiftRight(digits, count));
        return sign < 0 && Digits16.hasLow(digits, count) ? shifted.subtract(ONE) : shifted;
    }

    @Override
    public int intValue() {
        return word(0) | word(1) << 16;
    }

    @Override
    public long longValue() {
        return intValue() & 0xffffffffL | (long) (word(2) | word(3) << 16) << 32;
    }

    /** Its bytes in two's complement, the highest first, as few as have its sign. */
    public byte[] toByteArray() {
        byte[] bytes = new byte[(bitLength() >> 3) + 1];
        for (int i = 0; i < bytes.length; i++) { //@WCA loop=64 elements
            bytes[bytes.length - 1 - i] = (byte) (word(i >> 1) >>> 8 * (i & 1));
        }
        return bytes;
    }

    @Override
    public Text toText() {
        return toString(10);
    }

    /** Its digits of a base, with the sign; of base 10 where there is no such base. */
    public Text toString(int base) {
        int of = base < Character.MIN_RADIX || base > Character.MAX_RADIX ? 10 : base;
        int[] left = Digits16.trimmed(Arrays.clone(digits));
        StringBuilder made = new StringBuilder();
        for (int i = 0; i < digits.length; i++) { //@WCA loop=64 elements
            appendDigits(made, left, of);
        }
        if (sign == 0) {
            made.append('0');
        } else if (sign < 0) {
            made.append('-');
        }
        return made.reverse().toText();
    }

    /** Appends the lowest digits of a base, as many as 16 bits have at most, the lowest first; none where the number is 0. */
    private static void appendDigits(StringBuilder made, int[] left, int base) {
        for (int k = 0; k < 16 && !isZero(left); k++) { //@WCA loop=16
            made.append(Character.forDigit(Digits16.divideSmall(left, base), base));
        }
    }

    private static boolean isZero(int[] digits) {
        for (int i = digits.length - 1; i >= 0; i--) { //@WCA loop=64 elements
            if (digits[i] != 0) {
                return false;
            }
        }
        return true;
    }
}
