package java.lang;

import java.io.InputStream;
import java.io.PrintStream;
import jop.Copies;
import jop.StandardInput;
import jop.Strings;

/** The methods of System that need nothing outside of the program, and the standard input and output. */
public final class System {
    public static final InputStream in = new StandardInput();
    public static final PrintStream out = new PrintStream();

    private System() {
    }

    /** Copies part of an array; what overlaps as if by way of another array. Elements in front of one that can't be stored are copied. */
    public static void arraycopy(Object from, int first, Object to, int start, int length) {
        if (from instanceof byte[] && to instanceof byte[]) {
            Copies.copy((byte[]) from, first, (byte[]) to, start, length);
        } else if (from instanceof char[] && to instanceof char[]) {
            Copies.copy((char[]) from, first, (char[]) to, start, length);
        } else if (from instanceof int[] && to instanceof int[]) {
            Copies.copy((int[]) from, first, (int[]) to, start, length);
        } else if (from instanceof Object[] && to instanceof Object[]) {
            Copies.copy((Object[]) from, first, (Object[]) to, start, length);
        } else if (from instanceof long[] && to instanceof long[]) {
            Copies.copy((long[]) from, first, (long[]) to, start, length);
        } else if (from instanceof short[] && to instanceof short[]) {
            Copies.copy((short[]) from, first, (short[]) to, start, length);
        } else if (from instanceof boolean[] && to instanceof boolean[]) {
            Copies.copy((boolean[]) from, first, (boolean[]) to, start, length);
        } else if (from == null || to == null) {
            throw new NullPointerException();
        } else {
            throw new ArrayStoreException();
        }
    }

    /** 0 of null, and 1 of each other object: the machine doesn't tell where an object stands. */
    public static int identityHashCode(Object object) {
        return object == null ? 0 : 1;
    }

    /** Of a few names: the system is called `jop`, lines end with a line feed, and Java is 1.8; null of any other one. */
    public static String getProperty(String name) {
        if (name.length() == 0) {
            throw new IllegalArgumentException();
        }
        if (Strings.equals(name, "os.arch") || Strings.equals(name, "os.name")) {
            return "jop";
        }
        if (Strings.equals(name, "java.version") || Strings.equals(name, "java.specification.version")) {
            return "1.8";
        }
        return Strings.equals(name, "line.separator") ? "\n" : Strings.equals(name, "file.separator") ? "/" : null;
    }

    /** The property, or another string where there is none. */
    public static String getProperty(String name, String other) {
        String found = getProperty(name);
        return found == null ? other : found;
    }

    /** A line feed. */
    public static String lineSeparator() {
        return "\n";
    }
}
