/**
 * What the cases are tried on, in an order that depends on nothing but the case, and a sum of what came. TEXT is jop.Text, and String for a
 * virtual machine.
 */
public final class Seen {
    private static final int[] INTS = {
        0, 1, -1, 2, 7, 9, 10, -10, 31, 32, 0xff, 0xffff, 0x10000, 0x7fffffff, 0x80000000, 0x80000001};
    private static final long[] LONGS = {
        0, 1, -1, 7, 10, -10, 0x7fffffffL, 0x80000000L, 0xffffffffL, 0x100000000L, -0x80000000L, 0x7fffffff80000000L,
        0x7fffffffffffffffL, 0x8000000000000000L, 0x8000000000000001L, 0xffffffff00000001L};
    private static final String[] STRINGS = {
        "", "a", "ab", "abc", "ABC", "aba", "b", "abab", " ab ", "\t\n", "\u00e9\u4e2d", "x\ud83dx", "AaAa", "BBBB", "null", "true",
        "TRUE", "false", "-12", "+7", "2147483647", "-2147483648", "2147483648", "-2147483649", "9223372036854775807", "-9223372036854775808",
        "9223372036854775808", "7fffffff", "-80000000", "80000000", "zz", "+", "-", "12 ", "--1", "0000000000000000000000012", "1f", "-128", "128", "32768"};
    private static final char[] CHARS = {
        'a', 'b', 'a', 'b', 'A', 'B', ' ', 'z', '\u00e9', '\ud83d', '\ude00', '0', '\0', '\uffff', '9', 'Z'};

    /** How many seeded values each case is tried on, behind the edges. */
    static int count;
    /** Which of the seeds. */
    private static int round;
    /** The case whose sum is put behind each of its tries, or WHOLE; and the case that is tried. */
    private static int told, current;
    /** In place of a case: one line is put for the program, or one for each case. */
    private static final int WHOLE = 254, CASES = 255;
    private static int whole;
    private static int seed;
    private static int sum;
    private static int number;

    private Seen() {
    }

    static void read() {
        count = jop.Io.read() << 8 | jop.Io.read();
        round = jop.Io.read();
        told = jop.Io.read();
    }

    static void begin(int case_) {
        current = case_;
        seed = 0x9e3779b9 * (case_ + 1 + (round << 12)) | 1;
        sum = 0;
        number = 0;
    }

    /** Behind try i of the case that is told a line: which try, how many values came, and their sum. */
    static void tried(int i) {
        if (told == current) {
            digits(i);
            sums();
        }
    }

    /** Puts a line: the case, how many values came, and their sum. */
    static void end(String name) {
        if (told == WHOLE) {
            whole = (whole * 31 + number) * 31 + sum;
        } else if (told == CASES) {
            line(name);
            sums();
        }
    }

    /** Puts a line for the program: its name, and the sum of those of its cases. */
    static void endAll(String title) {
        if (told == WHOLE) {
            line(title);
            jop.Io.write(' ');
            digits(whole);
            jop.Io.write('\n');
        }
    }

    private static void sums() {
        jop.Io.write(' ');
        digits(number);
        jop.Io.write(' ');
        digits(sum);
        jop.Io.write('\n');
    }

    private static void line(String text) {
        for (int i = 0; i < text.length(); i++) {
            jop.Io.write(text.charAt(i));
        }
    }

    private static void digits(int value) {
        for (int shift = 28; shift >= 0; shift -= 4) {
            int digit = value >>> shift & 15;
            jop.Io.write(digit < 10 ? '0' + digit : 'a' - 10 + digit);
        }
    }

    static void put(int value) {
        sum = sum * 31 + value;
        number++;
    }

    static void put(long value) {
        put((int) (value >>> 32));
        put((int) value);
    }

    static void put(boolean value) {
        put(value ? 1 : 0);
    }

    static void put(TEXT text) {
        put(text == null ? null : text.toCharArray());
    }

MORE
    static void put(Throwable raised) {
        put(kind(raised));
    }

    private static int kind(Throwable raised) {
        return raised instanceof NumberFormatException ? -101
            : raised instanceof IllegalArgumentException ? -102
            : raised instanceof IndexOutOfBoundsException ? -103
            : raised instanceof ArithmeticException ? -104
            : raised instanceof NegativeArraySizeException ? -105
            : raised instanceof ArrayStoreException ? -106
            : raised instanceof NullPointerException ? -107
            : raised instanceof ClassCastException ? -108
            : raised instanceof Error ? -109 : -110;
    }

    /** The next number of a generator by shifts (Marsaglia, Xorshift RNGs). */
    static int next() {
        int mine = seed;
        mine ^= mine << 13;
        mine ^= mine >>> 17;
        mine ^= mine << 5;
        seed = mine;
        return mine;
    }

    /** A number from 0 up to a power of two. */
    static int below(int power) {
        return next() >>> 7 & power - 1;
    }

    /** Of try i below 256 an edge: each with each, where there are two arguments; then edges, numbers near to them and numbers of any length. */
    static int anyInt(int i, int place) {
        if (i < 256) {
            return INTS[(place == 0 ? i : place == 1 ? i >> 4 : i + (i >> 4)) & 15];
        }
        return seededInt();
    }

    static int seededInt() {
        int bits = next();
        int way = bits >>> 30;
        return way == 0 ? INTS[bits >>> 7 & 15] + (bits >>> 11 & 7) - 4 : way == 1 ? INTS[bits >>> 7 & 15]
            : way == 2 ? next() >> (bits >>> 7 & 31) : next();
    }

    static long anyLong(int i, int place) {
        if (i < 256) {
            return LONGS[(place == 0 ? i : place == 1 ? i >> 4 : i + (i >> 4)) & 15];
        }
        return seededLong();
    }

    static long seededLong() {
        int bits = next();
        int way = bits >>> 30;
        if (way < 2) {
            return way == 0 ? LONGS[bits >>> 7 & 15] + (bits >>> 11 & 7) - 4 : LONGS[bits >>> 7 & 15];
        }
        long value = (long) next() << 32 ^ next();
        return way == 2 ? value >> (bits >>> 7 & 63) : value;
    }

    static short anyShort(int i, int place) {
        return (short) anyInt(i, place);
    }

    static byte anyByte(int i, int place) {
        return (byte) anyInt(i, place);
    }

    static boolean anyBoolean(int i, int place) {
        return below(2) == 0;
    }

    /** All chars below 256 at first. */
    static char anyChar(int i, int place) {
        return (char) (i < 256 && place == 0 ? i : below(2) == 0 ? below(256) : CHARS[below(16)]);
    }

    static char anyLetter(int i, int place) {
        return CHARS[below(16)];
    }

    /** A code point, or none. */
    static int point(int i, int place) {
        return i % 8 == 0 ? 0x1f600 : i % 8 == 1 ? -1 : i % 32 == 2 ? 0x110000 : CHARS[below(16)];
    }

    static int index(int i, int place) {
        return below(4) == 0 ? anyInt(below(512), 0) : below(16) - 3;
    }

    static int near(int i, int place) {
        return below(16) - 2;
    }

    static int base(int i, int place) {
        return below(4) == 0 ? below(64) - 4 : 2 + below(32) + below(4);
    }

    /** Each string at first; as a second argument often the same one. */
    static String string(int i, int place) {
        if (place == 0 || below(4) != 0) {
            chosen = place == 0 && i < 40 ? i : (next() >>> 16) * 40 >>> 16;
        }
        return STRINGS[chosen];
    }

    private static int chosen;

    static char[] anyChars(int i, int place) {
        int bits = next();
        int length = bits >>> 7 & (bits < 0 ? 7 : 31);
        int few = (bits & 4096) == 0 ? 1 : 15;
        char[] chars = new char[length], from = CHARS;
        for (int k = 0; k < length; k++) {
            bits = (k & 7) == 0 ? next() : bits >>> 4;
            chars[k] = from[bits & few];
        }
        return chars;
    }

    /** As a second argument often the same chars. */
    static TEXT text(int i, int place) {
        if (place == 0 || below(4) != 0) {
            made = anyChars(i, place);
        }
        return TEXT_OF_CHARS(made);
    }

    private static char[] made = new char[0];

    /** A char below 256, all of them at first. */
    static char byteChar(int i, int place) {
        return (char) bytePoint(i, place);
    }

    static int bytePoint(int i, int place) {
        return i < 256 ? i : below(256);
    }

    static char eachChar(int i, int place) {
        return (char) eachPoint(i, place);
    }

    /** A char; those below 256 at first, then those near to blanks and surrogates, and any; and code points past them. */
    static int eachPoint(int i, int place) {
        int way = below(8);
        return i < 256 && place == 0 ? i : way < 3 ? 0x2000 + below(128) : way == 3 ? 0xd7ff + below(4096) : way == 4 ? 0x1680 + below(2)
            : way == 5 ? 0x3000 : way == 6 ? below(0x200000) : below(0x10000);
    }

    static TEXT digits(int i, int place) {
        if (below(4) == 0) {
            return TEXT_OF_STRING(STRINGS[(next() >>> 16) * 40 >>> 16]);
        }
        char[] chars = new char[below(4) == 0 ? below(32) : below(8)];
        int few = below(2) == 0 ? 10 : 36;
        for (int k = 0; k < chars.length; k++) {
            int bits = next();
            int digit = (bits >>> 16) * few >>> 16;
            chars[k] = (char) (digit < 10 ? '0' + digit : ((bits & 1) == 0 ? 'a' : 'A') - 10 + digit);
        }
        if (chars.length > 0 && below(2) == 0) {
            chars[0] = below(2) == 0 ? '-' : '+';
        }
        int changed = below(32);
        if (changed < 4 && changed < chars.length) {
            chars[changed] = CHARS[below(16)];
        }
        return TEXT_OF_CHARS(chars);
    }
KINDS
    /** Strings of literals, numbers as objects, texts and null. */
    static Object object(int i, int place) {
        int way = below(8);
        return way == 0 ? null : way < 3 ? STRINGS[below(4)] : way < 5 ? (Object) Integer.valueOf(below(4))
            : way == 5 ? (Object) Boolean.valueOf(below(2) == 0) : way == 6 ? (Object) Long.valueOf(below(4)) : (Object) text(i, place);
    }

    static Object[] objects(int i, int place) {
        Object[] each = new Object[below(2) == 0 ? below(4) : below(16)];
        for (int k = 0; k < each.length; k++) {
            each[k] = object(i, place);
        }
        return each;
    }

    /** An object's hash, for what is put of objects. */
    static void put(Object object) {
        put(object == null ? -1 : object instanceof Integer ? ((Integer) object).intValue() : object instanceof String ? ((String) object).length()
            : object instanceof TEXT ? ((TEXT) object).length() : object instanceof Number ? ((Number) object).intValue() : -2);
    }

    static void put(Object[] each) {
        put(each == null ? -1 : each.length);
        for (int i = 0; each != null && i < each.length; i++) {
            put(each[i]);
        }
    }
}
