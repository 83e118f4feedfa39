package java.lang;

import jop.EqualsMethod;
import jop.HashCodeMethod;
import jop.Text;
import jop.ToTextMethod;

/** Methods on byte, and a byte as an object. */
public final class Byte extends Number implements Comparable<Byte>, EqualsMethod, HashCodeMethod, ToTextMethod {
    public static final byte MIN_VALUE = -0x80;
    public static final byte MAX_VALUE = 0x7f;
    public static final int SIZE = 8;
    public static final int BYTES = 1;

    /** The objects from -128 to 127 that valueOf has made. */
    private static Byte[] made;

    private final byte value;

    public Byte(byte value) {
        this.value = value;
    }

    /** An object of the value; from -128 to 127 always the same one. */
    public static Byte valueOf(byte value) {
        if (value < -128 || value > 127) {
            return new Byte(value);
        }
        if (made == null) {
            made = new Byte[256];
        }
        Byte found = made[value + 128];
        if (found == null) {
            found = new Byte(value);
            made[value + 128] = found;
        }
        return found;
    }

    public static Byte valueOf(String text) {
        return valueOf(parseByte(text));
    }

    public static Byte valueOf(Text text) {
        return valueOf(parseByte(text));
    }

    @Override
    public int intValue() {
        return value;
    }

    @Override
    public long longValue() {
        return value;
    }

    @Override
    public boolean equals(Object other) {
        return other instanceof Byte && ((Byte) other).value == value;
    }

    @Override
    public int hashCode() {
        return value;
    }

    @Override
    public int compareTo(Byte other) {
        return value - other.value;
    }

    @Override
    public Text toText() {
        return Text.valueOf(value);
    }

    public static Text toString(byte value) {
        return Text.valueOf(value);
    }

    public static byte parseByte(String text) {
        return parseByte(Text.of(text), 10);
    }

    public static byte parseByte(String text, int base) {
        return parseByte(Text.of(text), base);
    }

    public static byte parseByte(Text text) {
        return parseByte(text, 10);
    }

    /** The number that a text of digits is; NumberFormatException where it is none, or none of a byte. */
    public static byte parseByte(Text text, int base) {
        int number = Integer.parseInt(text, base);
        if (number != (byte) number) {
            throw new NumberFormatException();
        }
        return (byte) number;
    }

    /** The difference, as the standard's method of this class gives it. */
    public static int compare(byte first, byte second) {
        return first - second;
    }

    public static int hashCode(byte value) {
        return value;
    }

    public static int toUnsignedInt(byte value) {
        return value & 0xff;
    }

    public static long toUnsignedLong(byte value) {
        return value & 0xff;
    }
}
