package jop;

/** Numbers without a sign as digits of 16 bits, the lowest first, without zeros at the end. What is handed over isn't changed. */
public final class Digits16 {
    private Digits16() {
    }

    /** Without zeros at the end. */
    public static int[] trimmed(int[] digits) {
        int count = digits.length;
        while (count > 0 && digits[count - 1] == 0) { //@WCA loop=64 elements
            count--;
        }
        if (count == digits.length) {
            return digits;
        }
        int[] made = new int[count];
        Copies.copy(digits, 0, made, 0, count);
        return made;
    }

    public static int[] of(long value) {
        int[] digits = new int[4];
        for (int i = 0; i < 4; i++) { //@WCA loop=4
            digits[i] = (int) (value >>> 16 * i) & 0xffff;
        }
        return trimmed(digits);
    }

    public static int compare(int[] first, int[] other) {
        if (first.length != other.length) {
            return first.length < other.length ? -1 : 1;
        }
        for (int i = first.length - 1; i >= 0; i--) { //@WCA loop=64 elements
            if (first[i] != other[i]) {
                return first[i] < other[i] ? -1 : 1;
            }
        }
        return 0;
    }

    public static int[] add(int[] first, int[] other) {
        int[] longer = first.length < other.length ? other : first;
        int[] shorter = longer == first ? other : first;
        int[] sum = new int[longer.length + 1];
        int carry = 0;
        for (int i = 0; i < longer.length; i++) { //@WCA loop=64 elements
            carry += longer[i] + (i < shorter.length ? shorter[i] : 0);
            sum[i] = carry & 0xffff;
            carry >>>= 16;
        }
        sum[longer.length] = carry;
        return trimmed(sum);
    }

    /** Of a number the other one, which isn't greater, less. */
    public static int[] subtract(int[] first, int[] other) {
        int[] difference = new int[first.length];
        int borrow = 0;
        for (int i = 0; i < first.length; i++) { //@WCA loop=64 elements
            borrow += first[i] - (i < other.length ? other[i] : 0);
            difference[i] = borrow & 0xffff;
            borrow >>= 16;
        }
        return trimmed(difference);
    }

    public static int[] multiply(int[] first, int[] other) {
        int[] product = new int[first.length + other.length];
        for (int i = 0; i < first.length; i++) { //@WCA loop=64 elements
            int carry = 0;
            for (int k = 0; k < other.length; k++) { //@WCA loop=64 elements
                carry += first[i] * other[k] + product[i + k];
                product[i + k] = carry & 0xffff;
                carry >>>= 16;
            }
            product[i + other.length] = carry;
        }
        return trimmed(product);
    }

    /** The number by a digit, and another digit more. */
    public static int[] multiply(int[] digits, int by, int more) {
        int[] product = new int[digits.length + 1];
        int carry = more;
        for (int i = 0; i < digits.length; i++) { //@WCA loop=64 elements
            carry += digits[i] * by;
            product[i] = carry & 0xffff;
            carry >>>= 16;
        }
        product[digits.length] = carry;
        return trimmed(product);
    }

    /** Divides digits by one of at most 15 bits, in their place; gives the remainder. */
    public static int divideSmall(int[] digits, int by) {
        int rest = 0;
        for (int i = digits.length - 1; i >= 0; i--) { //@WCA loop=64 elements
            int part = rest << 16 | digits[i];
            digits[i] = part / by;
            rest = part % by;
        }
        return rest;
    }

    /** The quotient of two numbers of which the second isn't 0, and the remainder (Knuth, The Art of Computer Programming 4.3.1, D). */
    public static int[][] divide(int[] first, int[] by) {
        if (compare(first, by) < 0) {
            return new int[][] {new int[0], first};
        }
        int shift = Integer.numberOfLeadingZeros(by[by.length - 1]) - 16;
        int[] divisor = shiftLeft(by, shift);
        int[] rest = new int[first.length + 1];
        int[] shifted = shiftLeft(first, shift);
        Copies.copy(shifted, 0, rest, 0, shifted.length);
        int[] quotient = new int[first.length - by.length + 1];
        for (int i = quotient.length - 1; i >= 0; i--) { //@WCA loop=64 elements
            quotient[i] = digit(rest, divisor, i);
        }
        return new int[][] {trimmed(quotient), shiftRight(trimmed(rest), shift)};
    }

    /** A digit of the quotient; takes it, times the divisor, from the rest. */
    private static int digit(int[] rest, int[] divisor, int place) {
        int top = place + divisor.length;
        int high = rest[top] << 16 | rest[top - 1];
        int guess = rest[top] >= divisor[divisor.length - 1] ? 0xffff : Integer.divideUnsigned(high, divisor[divisor.length - 1]);
        int borrow = 0;
        int carry = 0;
        for (int i = 0; i < divisor.length; i++) { //@WCA loop=64 elements
            carry += guess * divisor[i];
            borrow += rest[place + i] - (carry & 0xffff);
            rest[place + i] = borrow & 0xffff;
            carry >>>= 16;
            borrow >>= 16;
        }
        borrow += rest[top] - carry;
        rest[top] = borrow & 0xffff;
        int left = borrow >> 16;
        while (left < 0) { //@WCA loop=2
            guess--;
            left += addBack(rest, divisor, place);
        }
        return guess;
    }

    /** Adds the divisor to the rest; gives the carry. */
    private static int addBack(int[] rest, int[] divisor, int place) {
        int carry = 0;
        for (int i = 0; i < divisor.length; i++) { //@WCA loop=64 elements
            carry += rest[place + i] + divisor[i];
            rest[place + i] = carry & 0xffff;
            carry >>>= 16;
        }
        carry += rest[place + divisor.length];
        rest[place + divisor.length] = carry & 0xffff;
        return carry >>> 16;
    }

    public static int[] shiftLeft(int[] digits, int count) {
        int whole = count >>> 4;
        int part = count & 15;
        int[] made = new int[digits.length + whole + 1];
        int carry = 0;
        for (int i = 0; i < digits.length; i++) { //@WCA loop=64 elements
            carry |= digits[i] << part;
            made[i + whole] = carry & 0xffff;
            carry >>>= 16;
        }
        made[digits.length + whole] = carry;
        return trimmed(made);
    }

    public static int[] shiftRight(int[] digits, int count) {
        int whole = count >>> 4;
        int part = count & 15;
        int[] made = new int[whole < digits.length ? digits.length - whole : 0];
        for (int i = 0; i < made.length; i++) { //@WCA loop=64 elements
            int high = i + whole + 1 < digits.length ? digits[i + whole + 1] : 0;
            made[i] = (high << 16 | digits[i + whole]) >>> part & 0xffff;
        }
        return trimmed(made);
    }

    /** How many bits a number has, without zeros in front. */
    public static int bits(int[] digits) {
        return digits.length == 0 ? 0 : 16 * digits.length + 16 - Integer.numberOfLeadingZeros(digits[digits.length - 1]);
    }

    /** Whether one of the lowest bits, as many as a count, is 1. */
    public static boolean hasLow(int[] digits, int count) {
        for (int i = 0; i < digits.length && 16 * i < count; i++) { //@WCA loop=64 elements
            int left = count - 16 * i;
            if ((digits[i] & (left >= 16 ? 0xffff : (1 << left) - 1)) != 0) {
                return true;
            }
        }
        return false;
    }
}
