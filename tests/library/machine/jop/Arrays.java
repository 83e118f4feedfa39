package jop;

/** What a virtual machine does for the library's class of this name. */
public final class Arrays {
    public static void check(int count) {
        int[] made = new int[count < 0 ? count : 0];
    }

    public static Object[] clone(Object[] from, Object[] to) {
        return from.clone();
    }

    public static boolean[] clone(boolean[] from) {
        return from.clone();
    }

    public static boolean[][] newBooleans(int count, int second) {
        return new boolean[count][second];
    }

    public static boolean[][][] newBooleans(int count, int second, int third) {
        return new boolean[count][second][third];
    }

    public static byte[] clone(byte[] from) {
        return from.clone();
    }

    public static byte[][] newBytes(int count, int second) {
        return new byte[count][second];
    }

    public static byte[][][] newBytes(int count, int second, int third) {
        return new byte[count][second][third];
    }

    public static char[] clone(char[] from) {
        return from.clone();
    }

    public static char[][] newChars(int count, int second) {
        return new char[count][second];
    }

    public static char[][][] newChars(int count, int second, int third) {
        return new char[count][second][third];
    }

    public static short[] clone(short[] from) {
        return from.clone();
    }

    public static short[][] newShorts(int count, int second) {
        return new short[count][second];
    }

    public static short[][][] newShorts(int count, int second, int third) {
        return new short[count][second][third];
    }

    public static int[] clone(int[] from) {
        return from.clone();
    }

    public static int[][] newInts(int count, int second) {
        return new int[count][second];
    }

    public static int[][][] newInts(int count, int second, int third) {
        return new int[count][second][third];
    }

    public static long[] clone(long[] from) {
        return from.clone();
    }

    public static long[][] newLongs(int count, int second) {
        return new long[count][second];
    }

    public static long[][][] newLongs(int count, int second, int third) {
        return new long[count][second][third];
    }
}
