package java.lang;

import java.io.Serializable;
import jop.EqualsMethod;
import jop.HashCodeMethod;
import jop.Text;
import jop.ToTextMethod;

/** Methods on boolean, and a boolean as an object. */
public final class Boolean implements Serializable, Comparable<Boolean>, EqualsMethod, HashCodeMethod, ToTextMethod {
    public static final Boolean TRUE = new Boolean(true);
    public static final Boolean FALSE = new Boolean(false);

    private final boolean value;

    public Boolean(boolean value) {
        this.value = value;
    }

    public static Boolean valueOf(boolean value) {
        return value ? TRUE : FALSE;
    }

    public boolean booleanValue() {
        return value;
    }

    @Override
    public boolean equals(Object other) {
        return other instanceof Boolean && ((Boolean) other).value == value;
    }

    @Override
    public int hashCode() {
        return hashCode(value);
    }

    @Override
    public int compareTo(Boolean other) {
        return compare(value, other.value);
    }

    @Override
    public Text toText() {
        return toString(value);
    }

    public static Text toString(boolean value) {
        return Text.valueOf(value);
    }

    public static boolean parseBoolean(String text) {
        return parseBoolean(Text.of(text));
    }

    /** Whether the text is `true`, in letters of either case. */
    public static boolean parseBoolean(Text text) {
        return Text.of("true").equalsIgnoreCase(text);
    }

    public static int compare(boolean first, boolean second) {
        return first == second ? 0 : first ? 1 : -1;
    }

    public static int hashCode(boolean value) {
        return value ? 1231 : 1237;
    }

    public static boolean logicalAnd(boolean first, boolean second) {
        return first & second;
    }

    public static boolean logicalOr(boolean first, boolean second) {
        return first | second;
    }

    public static boolean logicalXor(boolean first, boolean second) {
        return first ^ second;
    }
}
