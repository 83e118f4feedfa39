package java.util;

import jop.Copies;
import jop.Strings;
import jop.Text;

/** The methods of Arrays that need nothing but the array. */
public final class Arrays {
    private Arrays() {
    }

    /** Raises what the standard says where a part isn't within an array of so many elements. */
    private static void check(int length, int first, int end) {
        if (first > end) {
            throw new IllegalArgumentException();
        }
        if (first < 0 || end > length) {
            throw new ArrayIndexOutOfBoundsException();
        }
    }

    public static void fill(boolean[] to, boolean value) {
        for (int i = 0; i < to.length; i++) { //@WCA loop=64 elements
            to[i] = value;
        }
    }

    public static void fill(boolean[] to, int first, int end, boolean value) {
        check(to.length, first, end);
        for (int i = first; i < end; i++) { //@WCA loop=64 elements
            to[i] = value;
        }
    }

    public static boolean equals(boolean[] first, boolean[] second) {
        if (first == second) {
            return true;
        }
        if (first == null || second == null || first.length != second.length) {
            return false;
        }
        for (int i = 0; i < first.length; i++) { //@WCA loop=64 elements
            if (first[i] != second[i]) {
                return false;
            }
        }
        return true;
    }

    public static int hashCode(boolean[] each) {
        if (each == null) {
            return 0;
        }
        int hash = 1;
        for (int i = 0; i < each.length; i++) { //@WCA loop=64 elements
            hash = 31 * hash + (each[i] ? 1231 : 1237);
        }
        return hash;
    }

    /** The first elements, and behind them those of a new array. */
    public static boolean[] copyOf(boolean[] from, int length) {
        boolean[] to = new boolean[length];
        Copies.copy(from, 0, to, 0, from.length < length ? from.length : length);
        return to;
    }

    /** The elements from a place up to another one, past the end those of a new array. */
    public static boolean[] copyOfRange(boolean[] from, int first, int end) {
        if (first > end) {
            throw new IllegalArgumentException();
        }
        if (first < 0 || first > from.length) {
            throw new ArrayIndexOutOfBoundsException();
        }
        boolean[] to = new boolean[end - first];
        Copies.copy(from, first, to, 0, (end < from.length ? end : from.length) - first);
        return to;
    }

    /** The elements between brackets, `null` for null. */
    public static Text toString(boolean[] each) {
        if (each == null) {
            return Text.of("null");
        }
        StringBuilder text = new StringBuilder().append('[');
        for (int i = 0; i < each.length; i++) { //@WCA loop=64 elements
            if (i > 0) {
                text.append(", ");
            }
            text.append(each[i]);
        }
        return text.append(']').toText();
    }

    public static void fill(byte[] to, byte value) {
        for (int i = 0; i < to.length; i++) { //@WCA loop=64 elements
            to[i] = value;
        }
    }

    public static void fill(byte[] to, int first, int end, byte value) {
        check(to.length, first, end);
        for (int i = first; i < end; i++) { //@WCA loop=64 elements
            to[i] = value;
        }
    }

    public static boolean equals(byte[] first, byte[] second) {
        if (first == second) {
            return true;
        }
        if (first == null || second == null || first.length != second.length) {
            return false;
        }
        for (int i = 0; i < first.length; i++) { //@WCA loop=64 elements
            if (first[i] != second[i]) {
                return false;
            }
        }
        return true;
    }

    public static int hashCode(byte[] each) {
        if (each == null) {
            return 0;
        }
        int hash = 1;
        for (int i = 0; i < each.length; i++) { //@WCA loop=64 elements
            hash = 31 * hash + each[i];
        }
        return hash;
    }

    /** The first elements, and behind them those of a new array. */
    public static byte[] copyOf(byte[] from, int length) {
        byte[] to = new byte[length];
        Copies.copy(from, 0, to, 0, from.length < length ? from.length : length);
        return to;
    }

    /** The elements from a place up to another one, past the end those of a new array. */
    public static byte[] copyOfRange(byte[] from, int first, int end) {
        if (first > end) {
            throw new IllegalArgumentException();
        }
        if (first < 0 || first > from.length) {
            throw new ArrayIndexOutOfBoundsException();
        }
        byte[] to = new byte[end - first];
        Copies.copy(from, first, to, 0, (end < from.length ? end : from.length) - first);
        return to;
    }

    public static void sort(byte[] each) {
        sort(each, 0, each.length);
    }

    /** Sorts a part by a heap, in place. */
    public static void sort(byte[] each, int first, int end) {
        check(each.length, first, end);
        for (int i = (end - first) / 2 - 1; i >= 0; i--) { //@WCA loop=32 halves
            sift(each, first, i, end - first);
        }
        for (int last = end - first - 1; last > 0; last--) { //@WCA loop=64 elements
            byte greatest = each[first];
            each[first] = each[first + last];
            each[first + last] = greatest;
            sift(each, first, 0, last);
        }
    }

    /** Moves the element at a node of a heap of so many down until none below it is greater. */
    private static void sift(byte[] each, int first, int node, int count) {
        byte moved = each[first + node];
        int at = node;
        int below = 2 * at + 1;
        while (below < count) { //@WCA loop=7 levels
            if (below + 1 < count && each[first + below + 1] > each[first + below]) {
                below++;
            }
            if (each[first + below] <= moved) {
                break;
            }
            each[first + at] = each[first + below];
            at = below;
            below = 2 * at + 1;
        }
        each[first + at] = moved;
    }

    /** A place of the value in a sorted array; where it has none, the negative number of the place where it would stand, less 1. */
    public static int binarySearch(byte[] each, byte value) {
        int first = 0;
        int last = each.length - 1;
        while (first <= last) { //@WCA loop=7 levels
            int middle = first + last >>> 1;
            if (each[middle] == value) {
                return middle;
            }
            if (each[middle] < value) {
                first = middle + 1;
            } else {
                last = middle - 1;
            }
        }
        return -first - 1;
    }

    /** The elements between brackets, `null` for null. */
    public static Text toString(byte[] each) {
        if (each == null) {
            return Text.of("null");
        }
        StringBuilder text = new StringBuilder().append('[');
        for (int i = 0; i < each.length; i++) { //@WCA loop=64 elements
            if (i > 0) {
                text.append(", ");
            }
            text.append(each[i]);
        }
        return text.append(']').toText();
    }

    public static void fill(char[] to, char value) {
        for (int i = 0; i < to.length; i++) { //@WCA loop=64 elements
            to[i] = value;
        }
    }

    public static void fill(char[] to, int first, int end, char value) {
        check(to.length, first, end);
        for (int i = first; i < end; i++) { //@WCA loop=64 elements
            to[i] = value;
        }
    }

    public static boolean equals(char[] first, char[] second) {
        if (first == second) {
            return true;
        }
        if (first == null || second == null || first.length != second.length) {
            return false;
        }
        for (int i = 0; i < first.length; i++) { //@WCA loop=64 elements
            if (first[i] != second[i]) {
                return false;
            }
        }
        return true;
    }

    public static int hashCode(char[] each) {
        if (each == null) {
            return 0;
        }
        int hash = 1;
        for (int i = 0; i < each.length; i++) { //@WCA loop=64 elements
            hash = 31 * hash + each[i];
        }
        return hash;
    }

    /** The first elements, and behind them those of a new array. */
    public static char[] copyOf(char[] from, int length) {
        char[] to = new char[length];
        Copies.copy(from, 0, to, 0, from.length < length ? from.length : length);
        return to;
    }

    /** The elements from a place up to another one, past the end those of a new array. */
    public static char[] copyOfRange(char[] from, int first, int end) {
        if (first > end) {
            throw new IllegalArgumentException();
        }
        if (first < 0 || first > from.length) {
            throw new ArrayIndexOutOfBoundsException();
        }
        char[] to = new char[end - first];
        Copies.copy(from, first, to, 0, (end < from.length ? end : from.length) - first);
        return to;
    }

    public static void sort(char[] each) {
        sort(each, 0, each.length);
    }

    /** Sorts a part by a heap, in place. */
    public static void sort(char[] each, int first, int end) {
        check(each.length, first, end);
        for (int i = (end - first) / 2 - 1; i >= 0; i--) { //@WCA loop=32 halves
            sift(each, first, i, end - first);
        }
        for (int last = end - first - 1; last > 0; last--) { //@WCA loop=64 elements
            char greatest = each[first];
            each[first] = each[first + last];
            each[first + last] = greatest;
            sift(each, first, 0, last);
        }
    }

    /** Moves the element at a node of a heap of so many down until none below it is greater. */
    private static void sift(char[] each, int first, int node, int count) {
        char moved = each[first + node];
        int at = node;
        int below = 2 * at + 1;
        while (below < count) { //@WCA loop=7 levels
            if (below + 1 < count && each[first + below + 1] > each[first + below]) {
                below++;
            }
            if (each[first + below] <= moved) {
                break;
            }
            each[first + at] = each[first + below];
            at = below;
            below = 2 * at + 1;
        }
        each[first + at] = moved;
    }

    /** A place of the value in a sorted array; where it has none, the negative number of the place where it would stand, less 1. */
    public static int binarySearch(char[] each, char value) {
        int first = 0;
        int last = each.length - 1;
        while (first <= last) { //@WCA loop=7 levels
            int middle = first + last >>> 1;
            if (each[middle] == value) {
                return middle;
            }
            if (each[middle] < value) {
                first = middle + 1;
            } else {
                last = middle - 1;
            }
        }
        return -first - 1;
    }

    /** The elements between brackets, `null` for null. */
    public static Text toString(char[] each) {
        if (each == null) {
            return Text.of("null");
        }
        StringBuilder text = new StringBuilder().append('[');
        for (int i = 0; i < each.length; i++) { //@WCA loop=64 elements
            if (i > 0) {
                text.append(", ");
            }
            text.append(each[i]);
        }
        return text.append(']').toText();
    }

    public static void fill(short[] to, short value) {
        for (int i = 0; i < to.length; i++) { //@WCA loop=64 elements
            to[i] = value;
        }
    }

    public static void fill(short[] to, int first, int end, short value) {
        check(to.length, first, end);
        for (int i = first; i < end; i++) { //@WCA loop=64 elements
            to[i] = value;
        }
    }

    public static boolean equals(short[] first, short[] second) {
        if (first == second) {
            return true;
        }
        if (first == null || second == null || first.length != second.length) {
            return false;
        }
        for (int i = 0; i < first.length; i++) { //@WCA loop=64 elements
            if (first[i] != second[i]) {
                return false;
            }
        }
        return true;
    }

    public static int hashCode(short[] each) {
        if (each == null) {
            return 0;
        }
        int hash = 1;
        for (int i = 0; i < each.length; i++) { //@WCA loop=64 elements
            hash = 31 * hash + each[i];
        }
        return hash;
    }

    /** The first elements, and behind them those of a new array. */
    public static short[] copyOf(short[] from, int length) {
        short[] to = new short[length];
        Copies.copy(from, 0, to, 0, from.length < length ? from.length : length);
        return to;
    }

    /** The elements from a place up to another one, past the end those of a new array. */
    public static short[] copyOfRange(short[] from, int first, int end) {
        if (first > end) {
            throw new IllegalArgumentException();
        }
        if (first < 0 || first > from.length) {
            throw new ArrayIndexOutOfBoundsException();
        }
        short[] to = new short[end - first];
        Copies.copy(from, first, to, 0, (end < from.length ? end : from.length) - first);
        return to;
    }

    public static void sort(short[] each) {
        sort(each, 0, each.length);
    }

    /** Sorts a part by a heap, in place. */
    public static void sort(short[] each, int first, int end) {
        check(each.length, first, end);
        for (int i = (end - first) / 2 - 1; i >= 0; i--) { //@WCA loop=32 halves
            sift(each, first, i, end - first);
        }
        for (int last = end - first - 1; last > 0; last--) { //@WCA loop=64 elements
            short greatest = each[first];
            each[first] = each[first + last];
            each[first + last] = greatest;
            sift(each, first, 0, last);
        }
    }

    /** Moves the element at a node of a heap of so many down until none below it is greater. */
    private static void sift(short[] each, int first, int node, int count) {
        short moved = each[first + node];
        int at = node;
        int below = 2 * at + 1;
        while (below < count) { //@WCA loop=7 levels
            if (below + 1 < count && each[first + below + 1] > each[first + below]) {
                below++;
            }
            if (each[first + below] <= moved) {
                break;
            }
            each[first + at] = each[first + below];
            at = below;
            below = 2 * at + 1;
        }
        each[first + at] = moved;
    }

    /** A place of the value in a sorted array; where it has none, the negative number of the place where it would stand, less 1. */
    public static int binarySearch(short[] each, short value) {
        int first = 0;
        int last = each.length - 1;
        while (first <= last) { //@WCA loop=7 levels
            int middle = first + last >>> 1;
            if (each[middle] == value) {
                return middle;
            }
            if (each[middle] < value) {
                first = middle + 1;
            } else {
                last = middle - 1;
            }
        }
        return -first - 1;
    }

    /** The elements between brackets, `null` for null. */
    public static Text toString(short[] each) {
        if (each == null) {
            return Text.of("null");
        }
        StringBuilder text = new StringBuilder().append('[');
        for (int i = 0; i < each.length; i++) { //@WCA loop=64 elements
            if (i > 0) {
                text.append(", ");
            }
            text.append(each[i]);
        }
        return text.append(']').toText();
    }

    public static void fill(int[] to, int value) {
        for (int i = 0; i < to.length; i++) { //@WCA loop=64 elements
            to[i] = value;
        }
    }

    public static void fill(int[] to, int first, int end, int value) {
        check(to.length, first, end);
        for (int i = first; i < end; i++) { //@WCA loop=64 elements
            to[i] = value;
        }
    }

    public static boolean equals(int[] first, int[] second) {
        if (first == second) {
            return true;
        }
        if (first == null || second == null || first.length != second.length) {
            return false;
        }
        for (int i = 0; i < first.length; i++) { //@WCA loop=64 elements
            if (first[i] != second[i]) {
                return false;
            }
        }
        return true;
    }

    public static int hashCode(int[] each) {
        if (each == null) {
            return 0;
        }
        int hash = 1;
        for (int i = 0; i < each.length; i++) { //@WCA loop=64 elements
            hash = 31 * hash + each[i];
        }
        return hash;
    }

    /** The first elements, and behind them those of a new array. */
    public static int[] copyOf(int[] from, int length) {
        int[] to = new int[length];
        Copies.copy(from, 0, to, 0, from.length < length ? from.length : length);
        return to;
    }

    /** The elements from a place up to another one, past the end those of a new array. */
    public static int[] copyOfRange(int[] from, int first, int end) {
        if (first > end) {
            throw new IllegalArgumentException();
        }
        if (first < 0 || first > from.length) {
            throw new ArrayIndexOutOfBoundsException();
        }
        int[] to = new int[end - first];
        Copies.copy(from, first, to, 0, (end < from.length ? end : from.length) - first);
        return to;
    }

    public static void sort(int[] each) {
        sort(each, 0, each.length);
    }

    /** Sorts a part by a heap, in place. */
    public static void sort(int[] each, int first, int end) {
        check(each.length, first, end);
        for (int i = (end - first) / 2 - 1; i >= 0; i--) { //@WCA loop=32 halves
            sift(each, first, i, end - first);
        }
        for (int last = end - first - 1; last > 0; last--) { //@WCA loop=64 elements
            int greatest = each[first];
            each[first] = each[first + last];
            each[first + last] = greatest;
            sift(each, first, 0, last);
        }
    }

    /** Moves the element at a node of a heap of so many down until none below it is greater. */
    private static void sift(int[] each, int first, int node, int count) {
        int moved = each[first + node];
        int at = node;
        int below = 2 * at + 1;
        while (below < count) { //@WCA loop=7 levels
            if (below + 1 < count && each[first + below + 1] > each[first + below]) {
                below++;
            }
            if (each[first + below] <= moved) {
                break;
            }
            each[first + at] = each[first + below];
            at = below;
            below = 2 * at + 1;
        }
        each[first + at] = moved;
    }

    /** A place of the value in a sorted array; where it has none, the negative number of the place where it would stand, less 1. */
    public static int binarySearch(int[] each, int value) {
        int first = 0;
        int last = each.length - 1;
        while (first <= last) { //@WCA loop=7 levels
            int middle = first + last >>> 1;
            if (each[middle] == value) {
                return middle;
            }
            if (each[middle] < value) {
                first = middle + 1;
            } else {
                last = middle - 1;
            }
        }
        return -first - 1;
    }

    /** The elements between brackets, `null` for null. */
    public static Text toString(int[] each) {
        if (each == null) {
            return Text.of("null");
        }
        StringBuilder text = new StringBuilder().append('[');
        for (int i = 0; i < each.length; i++) { //@WCA loop=64 elements
            if (i > 0) {
                text.append(", ");
            }
            text.append(each[i]);
        }
        return text.append(']').toText();
    }

    public static void fill(long[] to, long value) {
        for (int i = 0; i < to.length; i++) { //@WCA loop=64 elements
            to[i] = value;
        }
    }

    public static void fill(long[] to, int first, int end, long value) {
        check(to.length, first, end);
        for (int i = first; i < end; i++) { //@WCA loop=64 elements
            to[i] = value;
        }
    }

    public static boolean equals(long[] first, long[] second) {
        if (first == second) {
            return true;
        }
        if (first == null || second == null || first.length != second.length) {
            return false;
        }
        for (int i = 0; i < first.length; i++) { //@WCA loop=64 elements
            if (first[i] != second[i]) {
                return false;
            }
        }
        return true;
    }

    public static int hashCode(long[] each) {
        if (each == null) {
            return 0;
        }
        int hash = 1;
        for (int i = 0; i < each.length; i++) { //@WCA loop=64 elements
            hash = 31 * hash + (int) (each[i] ^ each[i] >>> 32);
        }
        return hash;
    }

    /** The first elements, and behind them those of a new array. */
    public static long[] copyOf(long[] from, int length) {
        long[] to = new long[length];
        Copies.copy(from, 0, to, 0, from.length < length ? from.length : length);
        return to;
    }

    /** The elements from a place up to another one, past the end those of a new array. */
    public static long[] copyOfRange(long[] from, int first, int end) {
        if (first > end) {
            throw new IllegalArgumentException();
        }
        if (first < 0 || first > from.length) {
            throw new ArrayIndexOutOfBoundsException();
        }
        long[] to = new long[end - first];
        Copies.copy(from, first, to, 0, (end < from.length ? end : from.length) - first);
        return to;
    }

    public static void sort(long[] each) {
        sort(each, 0, each.length);
    }

    /** Sorts a part by a heap, in place. */
    public static void sort(long[] each, int first, int end) {
        check(each.length, first, end);
        for (int i = (end - first) / 2 - 1; i >= 0; i--) { //@WCA loop=32 halves
            sift(each, first, i, end - first);
        }
        for (int last = end - first - 1; last > 0; last--) { //@WCA loop=64 elements
            long greatest = each[first];
            each[first] = each[first + last];
            each[first + last] = greatest;
            sift(each, first, 0, last);
        }
    }

    /** Moves the element at a node of a heap of so many down until none below it is greater. */
    private static void sift(long[] each, int first, int node, int count) {
        long moved = each[first + node];
        int at = node;
        int below = 2 * at + 1;
        while (below < count) { //@WCA loop=7 levels
            if (below + 1 < count && each[first + below + 1] > each[first + below]) {
                below++;
            }
            if (each[first + below] <= moved) {
                break;
            }
            each[first + at] = each[first + below];
            at = below;
            below = 2 * at + 1;
        }
        each[first + at] = moved;
    }

    /** A place of the value in a sorted array; where it has none, the negative number of the place where it would stand, less 1. */
    public static int binarySearch(long[] each, long value) {
        int first = 0;
        int last = each.length - 1;
        while (first <= last) { //@WCA loop=7 levels
            int middle = first + last >>> 1;
            if (each[middle] == value) {
                return middle;
            }
            if (each[middle] < value) {
                first = middle + 1;
            } else {
                last = middle - 1;
            }
        }
        return -first - 1;
    }

    /** The elements between brackets, `null` for null. */
    public static Text toString(long[] each) {
        if (each == null) {
            return Text.of("null");
        }
        StringBuilder text = new StringBuilder().append('[');
        for (int i = 0; i < each.length; i++) { //@WCA loop=64 elements
            if (i > 0) {
                text.append(", ");
            }
            text.append(each[i]);
        }
        return text.append(']').toText();
    }

    /** The first elements, and behind them those of a new array. */
    public static <T> T[] copyOf(T[] from, int length) {
        Object[] to = jop.Arrays.ofKind(from, length);
        Copies.copy(from, 0, to, 0, from.length < length ? from.length : length);
        return (T[]) to;
    }

    /** The elements from a place up to another one, past the end those of a new array. */
    public static <T> T[] copyOfRange(T[] from, int first, int end) {
        if (first > end) {
            throw new IllegalArgumentException();
        }
        if (first < 0 || first > from.length) {
            throw new ArrayIndexOutOfBoundsException();
        }
        Object[] to = jop.Arrays.ofKind(from, end - first);
        Copies.copy(from, first, to, 0, (end < from.length ? end : from.length) - first);
        return (T[]) to;
    }

    public static void fill(Object[] to, Object value) {
        for (int i = 0; i < to.length; i++) { //@WCA loop=64 elements
            to[i] = value;
        }
    }

    public static void fill(Object[] to, int first, int end, Object value) {
        check(to.length, first, end);
        for (int i = first; i < end; i++) { //@WCA loop=64 elements
            to[i] = value;
        }
    }

    public static boolean equals(Object[] first, Object[] second) {
        if (first == second) {
            return true;
        }
        if (first == null || second == null || first.length != second.length) {
            return false;
        }
        for (int i = 0; i < first.length; i++) { //@WCA loop=64 elements
            if (!Objects.equals(first[i], second[i])) {
                return false;
            }
        }
        return true;
    }

    public static int hashCode(Object[] each) {
        if (each == null) {
            return 0;
        }
        int hash = 1;
        for (int i = 0; i < each.length; i++) { //@WCA loop=64 elements
            hash = 31 * hash + Objects.hashCode(each[i]);
        }
        return hash;
    }

    /** The elements between brackets, `null` for null. */
    public static Text toString(Object[] each) {
        if (each == null) {
            return Text.of("null");
        }
        StringBuilder text = new StringBuilder().append('[');
        for (int i = 0; i < each.length; i++) { //@WCA loop=64 elements
            if (i > 0) {
                text.append(", ");
            }
            text.append(each[i]);
        }
        return text.append(']').toText();
    }

    /** The array as a list, which can't grow. */
    public static <T> List<T> asList(T... each) {
        return new ArrayAsList<T>(each);
    }

    /** Sorts by the order of the elements themselves; equal ones keep theirs. */
    public static void sort(Object[] each) {
        sort(each, 0, each.length, null);
    }

    public static void sort(Object[] each, int first, int end) {
        sort(each, first, end, null);
    }

    public static <T> void sort(T[] each, Comparator<? super T> order) {
        sort(each, 0, each.length, order);
    }

    /** Sorts a part by merging ever longer runs; equal elements keep their order. */
    public static <T> void sort(T[] each, int first, int end, Comparator<? super T> order) {
        check(each.length, first, end);
        int count = end - first;
        Object[] from = new Object[count];
        Object[] to = new Object[count];
        Copies.copy(each, first, from, 0, count);
        for (int length = 1; length < count; length *= 2) { //@WCA loop=7 levels
            merge(from, to, length, order);
            Object[] merged = to;
            to = from;
            from = merged;
        }
        Copies.copy(from, 0, each, first, count);
    }

    /** Merges each two runs of so many elements, the last of which may be shorter, into one. */
    private static <T> void merge(Object[] from, Object[] to, int length, Comparator<? super T> order) {
        int left = 0;
        int leftEnd = 0;
        int right = 0;
        int rightEnd = 0;
        for (int i = 0; i < to.length; i++) { //@WCA loop=64 elements
            if (i == rightEnd) {
                left = i;
                leftEnd = length < to.length - i ? i + length : to.length;
                right = leftEnd;
                rightEnd = length < to.length - leftEnd ? leftEnd + length : to.length;
            }
            if (left < leftEnd && (right == rightEnd || compare(from[left], from[right], order) <= 0)) {
                to[i] = from[left];
                left++;
            } else {
                to[i] = from[right];
                right++;
            }
        }
    }

    private static <T> int compare(Object first, Object second, Comparator<? super T> order) {
        if (order != null) {
            return order.compare((T) first, (T) second);
        }
        if (first instanceof String) {
            return Strings.compareTo((String) first, (String) second);
        }
        return ((Comparable<Object>) first).compareTo(second);
    }
}
