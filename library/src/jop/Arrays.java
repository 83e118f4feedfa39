package jop;

/**
 * Arrays that are made: of several dimensions, for multianewarray (JVM Specification SE 8, 6.5), and copies, for clone (Java Language
 * Specification SE 8, 10.7).
 */
public final class Arrays {
    private Arrays() {
    }

    /** Raises NegativeArraySizeException where the count is negative. */
    public static void check(int count) {
        if (count < 0) {
            throw new NegativeArraySizeException();
        }
    }

    public static boolean[] clone(boolean[] from) {
        boolean[] to = new boolean[from.length];
        Copies.copy(from, 0, to, 0, from.length);
        return to;
    }

    public static byte[] clone(byte[] from) {
        byte[] to = new byte[from.length];
        Copies.copy(from, 0, to, 0, from.length);
        return to;
    }

    public static char[] clone(char[] from) {
        char[] to = new char[from.length];
        Copies.copy(from, 0, to, 0, from.length);
        return to;
    }

    public static short[] clone(short[] from) {
        short[] to = new short[from.length];
        Copies.copy(from, 0, to, 0, from.length);
        return to;
    }

    public static int[] clone(int[] from) {
        int[] to = new int[from.length];
        Copies.copy(from, 0, to, 0, from.length);
        return to;
    }

    public static long[] clone(long[] from) {
        long[] to = new long[from.length];
        Copies.copy(from, 0, to, 0, from.length);
        return to;
    }

    /** Copies all elements into an array of the same type and length that the caller made, and gives that. */
    public static Object[] clone(Object[] from, Object[] to) {
        Copies.copy(from, 0, to, 0, from.length);
        return to;
    }

    /** An array of the class of another one; `tools/adapt` gives it all classes of arrays that a program makes. */
    public static Object[] ofKind(Object[] other, int count) {
        return new Object[count];
    }

    public static boolean[][] newBooleans(int count, int second) {
        check(second);
        boolean[][] made = new boolean[count][];
        for (int i = 0; i < count; i++) { //@WCA loop=64 elements
            made[i] = new boolean[second];
        }
        return made;
    }

    public static boolean[][][] newBooleans(int count, int second, int third) {
        check(second);
        check(third);
        boolean[][][] made = new boolean[count][][];
        for (int i = 0; i < count; i++) { //@WCA loop=64 elements
            made[i] = newBooleans(second, third);
        }
        return made;
    }

    public static byte[][] newBytes(int count, int second) {
        check(second);
        byte[][] made = new byte[count][];
        for (int i = 0; i < count; i++) { //@WCA loop=64 elements
            made[i] = new byte[second];
        }
        return made;
    }

    public static byte[][][] newBytes(int count, int second, int third) {
        check(second);
        check(third);
        byte[][][] made = new byte[count][][];
        for (int i = 0; i < count; i++) { //@WCA loop=64 elements
            made[i] = newBytes(second, third);
        }
        return made;
    }

    public static char[][] newChars(int count, int second) {
        check(second);
        char[][] made = new char[count][];
        for (int i = 0; i < count; i++) { //@WCA loop=64 elements
            made[i] = new char[second];
        }
        return made;
    }

    public static char[][][] newChars(int count, int second, int third) {
        check(second);
        check(third);
        char[][][] made = new char[count][][];
        for (int i = 0; i < count; i++) { //@WCA loop=64 elements
            made[i] = newChars(second, third);
        }
        return made;
    }

    public static short[][] newShorts(int count, int second) {
        check(second);
        short[][] made = new short[count][];
        for (int i = 0; i < count; i++) { //@WCA loop=64 elements
            made[i] = new short[second];
        }
        return made;
    }

    public static short[][][] newShorts(int count, int second, int third) {
        check(second);
        check(third);
        short[][][] made = new short[count][][];
        for (int i = 0; i < count; i++) { //@WCA loop=64 elements
            made[i] = newShorts(second, third);
        }
        return made;
    }

    public static int[][] newInts(int count, int second) {
        check(second);
        int[][] made = new int[count][];
        for (int i = 0; i < count; i++) { //@WCA loop=64 elements
            made[i] = new int[second];
        }
        return made;
    }

    public static int[][][] newInts(int count, int second, int third) {
        check(second);
        check(third);
        int[][][] made = new int[count][][];
        for (int i = 0; i < count; i++) { //@WCA loop=64 elements
            made[i] = newInts(second, third);
        }
        return made;
    }

    public static long[][] newLongs(int count, int second) {
        check(second);
        long[][] made = new long[count][];
        for (int i = 0; i < count; i++) { //@WCA loop=64 elements
            made[i] = new long[second];
        }
        return made;
    }

    public static long[][][] newLongs(int count, int second, int third) {
        check(second);
        check(third);
        long[][][] made = new long[count][][];
        for (int i = 0; i < count; i++) { //@WCA loop=64 elements
            made[i] = newLongs(second, third);
        }
        return made;
    }
}
