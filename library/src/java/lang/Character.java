package java.lang;

import java.io.Serializable;
import jop.Digits;
import jop.EqualsMethod;
import jop.HashCodeMethod;
import jop.Text;
import jop.ToTextMethod;

/** Methods on char, and a char as an object. Of letters, digits and cases only the chars below 256 are known. */
public final class Character implements Serializable, Comparable<Character>, EqualsMethod, HashCodeMethod, ToTextMethod {
    public static final char MIN_VALUE = '\u0000';
    public static final char MAX_VALUE = '\uffff';
    public static final int MIN_RADIX = 2;
    public static final int MAX_RADIX = 36;
    public static final int SIZE = 16;
    public static final int BYTES = 2;
    public static final char MIN_HIGH_SURROGATE = '\ud800';
    public static final char MAX_HIGH_SURROGATE = '\udbff';
    public static final char MIN_LOW_SURROGATE = '\udc00';
    public static final char MAX_LOW_SURROGATE = '\udfff';
    public static final char MIN_SURROGATE = MIN_HIGH_SURROGATE;
    public static final char MAX_SURROGATE = MAX_LOW_SURROGATE;
    public static final int MIN_SUPPLEMENTARY_CODE_POINT = 0x10000;
    public static final int MIN_CODE_POINT = 0;
    public static final int MAX_CODE_POINT = 0x10ffff;

    /** The objects up to 127 that valueOf has made. */
    private static Character[] made;

    private final char value;

    public Character(char value) {
        this.value = value;
    }

    /** An object of the value; up to 127 always the same one. */
    public static Character valueOf(char value) {
        if (value > 127) {
            return new Character(value);
        }
        if (made == null) {
            made = new Character[128];
        }
        Character found = made[value];
        if (found == null) {
            found = new Character(value);
            made[value] = found;
        }
        return found;
    }

    public char charValue() {
        return value;
    }

    @Override
    public boolean equals(Object other) {
        return other instanceof Character && ((Character) other).value == value;
    }

    @Override
    public int hashCode() {
        return value;
    }

    @Override
    public int compareTo(Character other) {
        return value - other.value;
    }

    @Override
    public Text toText() {
        return Text.valueOf(value);
    }

    public static Text toString(char value) {
        return Text.valueOf(value);
    }

    public static boolean isDigit(char value) {
        return isDigit((int) value);
    }

    public static boolean isDigit(int point) {
        return point >= '0' && point <= '9';
    }

    public static boolean isLetter(char value) {
        return isLetter((int) value);
    }

    public static boolean isLetter(int point) {
        return isUpperCase(point) || isLowerCase(point);
    }

    public static boolean isLetterOrDigit(char value) {
        return isLetterOrDigit((int) value);
    }

    public static boolean isLetterOrDigit(int point) {
        return isLetter(point) || isDigit(point);
    }

    public static boolean isAlphabetic(int point) {
        return isLetter(point);
    }

    public static boolean isUpperCase(char value) {
        return isUpperCase((int) value);
    }

    public static boolean isUpperCase(int point) {
        return point >= 'A' && point <= 'Z' || point >= 0xc0 && point <= 0xde && point != 0xd7;
    }

    public static boolean isLowerCase(char value) {
        return isLowerCase((int) value);
    }

    public static boolean isLowerCase(int point) {
        return point >= 'a' && point <= 'z' || point >= 0xdf && point <= 0xff && point != 0xf7
            || point == 0xaa || point == 0xb5 || point == 0xba;
    }

    public static char toUpperCase(char value) {
        return (char) toUpperCase((int) value);
    }

    public static int toUpperCase(int point) {
        if (point == 0xb5) {
            return 0x39c;
        }
        if (point == 0xff) {
            return 0x178;
        }
        return isLowerCase(point) && point != 0xaa && point != 0xba && point != 0xdf ? point - 32 : point;
    }

    public static char toLowerCase(char value) {
        return (char) toLowerCase((int) value);
    }

    public static int toLowerCase(int point) {
        return isUpperCase(point) ? point + 32 : point;
    }

    public static int digit(char value, int base) {
        return digit((int) value, base);
    }

    /** The digit that a char is in a base of 2 to 36; -1 where it is none. */
    public static int digit(int point, int base) {
        int digit = -1;
        if (isDigit(point)) {
            digit = point - '0';
        } else if (point >= 'a' && point <= 'z') {
            digit = point - 'a' + 10;
        } else if (point >= 'A' && point <= 'Z') {
            digit = point - 'A' + 10;
        }
        return digit < base && base >= MIN_RADIX && base <= MAX_RADIX ? digit : -1;
    }

    /** The digit as a char; 0 where it is none in the base. */
    public static char forDigit(int digit, int base) {
        return base < MIN_RADIX || base > MAX_RADIX || digit < 0 || digit >= base ? 0 : Digits.of(digit);
    }

    public static int getNumericValue(char value) {
        return getNumericValue((int) value);
    }

    /** The number that a digit or a letter stands for; -1 of others, and -2 of a fraction. */
    public static int getNumericValue(int point) {
        if (point == 0xb2 || point == 0xb3) {
            return point - 0xb0;
        }
        if (point == 0xb9) {
            return 1;
        }
        return point >= 0xbc && point <= 0xbe ? -2 : digit(point, MAX_RADIX);
    }

    public static boolean isWhitespace(char value) {
        return isWhitespace((int) value);
    }

    public static boolean isWhitespace(int point) {
        return point >= 9 && point <= 13 || point >= 28 && point <= 31
            || isSpaceChar(point) && point != 0xa0 && point != 0x2007 && point != 0x202f;
    }

    public static boolean isSpaceChar(char value) {
        return isSpaceChar((int) value);
    }

    public static boolean isSpaceChar(int point) {
        return point == ' ' || point == 0xa0 || point == 0x1680 || point >= 0x2000 && point <= 0x200a
            || point == 0x2028 || point == 0x2029 || point == 0x202f || point == 0x205f || point == 0x3000;
    }

    public static boolean isISOControl(char value) {
        return isISOControl((int) value);
    }

    public static boolean isISOControl(int point) {
        return point >= 0 && point <= 0x1f || point >= 0x7f && point <= 0x9f;
    }

    public static boolean isHighSurrogate(char value) {
        return value >= MIN_HIGH_SURROGATE && value <= MAX_HIGH_SURROGATE;
    }

    public static boolean isLowSurrogate(char value) {
        return value >= MIN_LOW_SURROGATE && value <= MAX_LOW_SURROGATE;
    }

    public static boolean isSurrogate(char value) {
        return value >= MIN_SURROGATE && value <= MAX_SURROGATE;
    }

    public static boolean isSurrogatePair(char high, char low) {
        return isHighSurrogate(high) && isLowSurrogate(low);
    }

    public static int toCodePoint(char high, char low) {
        return (high - MIN_HIGH_SURROGATE << 10) + (low - MIN_LOW_SURROGATE) + MIN_SUPPLEMENTARY_CODE_POINT;
    }

    public static int charCount(int point) {
        return point >= MIN_SUPPLEMENTARY_CODE_POINT ? 2 : 1;
    }

    public static int compare(char first, char second) {
        return first - second;
    }

    public static int hashCode(char value) {
        return value;
    }

    public static char reverseBytes(char value) {
        return (char) (value << 8 | value >> 8);
    }

    /** Whether a name in Java may begin with it; of chars below 256. */
    public static boolean isJavaIdentifierStart(int point) {
        return isLetter(point) || point == '_' || point == '$' || point >= 0xa2 && point <= 0xa5;
    }

    /** Whether a name in Java may go on with it; of chars below 256. */
    public static boolean isJavaIdentifierPart(int point) {
        return isJavaIdentifierStart(point) || isDigit(point) || isIdentifierIgnorable(point);
    }

    /** Whether names pass over it; of chars below 256. */
    public static boolean isIdentifierIgnorable(int point) {
        return point >= 0 && point <= 8 || point >= 14 && point <= 27 || point >= 0x7f && point <= 0x9f || point == 0xad;
    }

    public static boolean isJavaIdentifierStart(char value) {
        return isJavaIdentifierStart((int) value);
    }

    public static boolean isJavaIdentifierPart(char value) {
        return isJavaIdentifierPart((int) value);
    }
}
