package java.lang;

import jop.EqualsMethod;
import jop.HashCodeMethod;
import jop.Text;
import jop.ToTextMethod;

/** Methods on short, and a short as an object. */
public final class Short extends Number implements Comparable<Short>, EqualsMethod, HashCodeMethod, ToTextMethod {
    public static final short MIN_VALUE = -0x8000;
    public static final short MAX_VALUE = 0x7fff;
    public static final int SIZE = 16;
    public static final int BYTES = 2;

    /** The objects from -128 to 127 that valueOf has made. */
    private static Short[] made;

    private final short value;

    public Short(short value) {
        this.value = value;
    }

    /** An object of the value; from -128 to 127 always the same one. */
    public static Short valueOf(short value) {
        if (value < -128 || value > 127) {
            return new Short(value);
        }
        if (made == null) {
            made = new Short[256];
        }
        Short found = made[value + 128];
        if (found == null) {
            found = new Short(value);
            made[value + 128] = found;
        }
        return found;
    }

    public static Short valueOf(String text) {
        return valueOf(parseShort(text));
    }

    public static Short valueOf(Text text) {
        return valueOf(parseShort(text));
    }

    @Override
    public int intValue() {
        return value;
    }

    @Override
    public long longValue() {
        return value;
    }

    @Override
    public boolean equals(Object other) {
        return other instanceof Short && ((Short) other).value == value;
    }

    @Override
    public int hashCode() {
        return value;
    }

    @Override
    public int compareTo(Short other) {
        return value - other.value;
    }

    @Override
    public Text toText() {
        return Text.valueOf(value);
    }

    public static Text toString(short value) {
        return Text.valueOf(value);
    }

    public static short parseShort(String text) {
        return parseShort(Text.of(text), 10);
    }

    public static short parseShort(String text, int base) {
        return parseShort(Text.of(text), base);
    }

    public static short parseShort(Text text) {
        return parseShort(text, 10);
    }

    /** The number that a text of digits is; NumberFormatException where it is none, or none of a short. */
    public static short parseShort(Text text, int base) {
        int number = Integer.parseInt(text, base);
        if (number != (short) number) {
            throw new NumberFormatException();
        }
        return (short) number;
    }

    /** The difference, as the standard's method of this class gives it. */
    public static int compare(short first, short second) {
        return first - second;
    }

    public static int hashCode(short value) {
        return value;
    }

    public static int toUnsignedInt(short value) {
        return value & 0xffff;
    }

    public static long toUnsignedLong(short value) {
        return value & 0xffff;
    }

    public static short reverseBytes(short value) {
        return (short) ((value & 0xff) << 8 | value >> 8 & 0xff);
    }
}
