package jop;

/** Copies of parts of arrays, for System.arraycopy: what overlaps is copied as if by way of another array. */
public final class Copies {
    private Copies() {
    }

    /** Raises ArrayIndexOutOfBoundsException where a part isn't within its array. */
    private static void check(int fromLength, int first, int toLength, int start, int length) {
        if ((first | start | length) < 0 || length > fromLength - first || length > toLength - start) {
            throw new ArrayIndexOutOfBoundsException();
        }
    }

    /** Copies `length` elements of `from` at `first` to `to` at `start`. */
    public static void copy(boolean[] from, int first, boolean[] to, int start, int length) {
        check(from.length, first, to.length, start, length);
        if (from == to && first < start) {
            for (int i = length - 1; i >= 0; i--) { //@WCA loop=64 elements
                to[start + i] = from[first + i];
            }
        } else {
            for (int i = 0; i < length; i++) { //@WCA loop=64 elements
                to[start + i] = from[first + i];
            }
        }
    }

    /** Copies `length` elements of `from` at `first` to `to` at `start`. */
    public static void copy(byte[] from, int first, byte[] to, int start, int length) {
        check(from.length, first, to.length, start, length);
        if (from == to && first < start) {
            for (int i = length - 1; i >= 0; i--) { //@WCA loop=64 elements
                to[start + i] = from[first + i];
            }
        } else {
            for (int i = 0; i < length; i++) { //@WCA loop=64 elements
                to[start + i] = from[first + i];
            }
        }
    }

    /** Copies `length` elements of `from` at `first` to `to` at `start`. */
    public static void copy(char[] from, int first, char[] to, int start, int length) {
        check(from.length, first, to.length, start, length);
        if (from == to && first < start) {
            for (int i = length - 1; i >= 0; i--) { //@WCA loop=64 elements
                to[start + i] = from[first + i];
            }
        } else {
            for (int i = 0; i < length; i++) { //@WCA loop=64 elements
                to[start + i] = from[first + i];
            }
        }
    }

    /** Copies `length` elements of `from` at `first` to `to` at `start`. */
    public static void copy(short[] from, int first, short[] to, int start, int length) {
        check(from.length, first, to.length, start, length);
        if (from == to && first < start) {
            for (int i = length - 1; i >= 0; i--) { //@WCA loop=64 elements
                to[start + i] = from[first + i];
            }
        } else {
            for (int i = 0; i < length; i++) { //@WCA loop=64 elements
                to[start + i] = from[first + i];
            }
        }
    }

    /** Copies `length` elements of `from` at `first` to `to` at `start`. */
    public static void copy(int[] from, int first, int[] to, int start, int length) {
        check(from.length, first, to.length, start, length);
        if (from == to && first < start) {
            for (int i = length - 1; i >= 0; i--) { //@WCA loop=64 elements
                to[start + i] = from[first + i];
            }
        } else {
            for (int i = 0; i < length; i++) { //@WCA loop=64 elements
                to[start + i] = from[first + i];
            }
        }
    }

    /** Copies `length` elements of `from` at `first` to `to` at `start`. */
    public static void copy(long[] from, int first, long[] to, int start, int length) {
        check(from.length, first, to.length, start, length);
        if (from == to && first < start) {
            for (int i = length - 1; i >= 0; i--) { //@WCA loop=64 elements
                to[start + i] = from[first + i];
            }
        } else {
            for (int i = 0; i < length; i++) { //@WCA loop=64 elements
                to[start + i] = from[first + i];
            }
        }
    }

    /** Copies `length` elements of `from` at `first` to `to` at `start`. */
    public static void copy(Object[] from, int first, Object[] to, int start, int length) {
        check(from.length, first, to.length, start, length);
        if (from == to && first < start) {
            for (int i = length - 1; i >= 0; i--) { //@WCA loop=64 elements
                to[start + i] = from[first + i];
            }
        } else {
            for (int i = 0; i < length; i++) { //@WCA loop=64 elements
                to[start + i] = from[first + i];
            }
        }
    }
}
