package jop;

/** How many entries a map or a set holds at most. */
public final class Capacity {
    private Capacity() {
    }

    /** That number; `tools/adapt --elements N` puts N in its place. */
    public static int entries() {
        return 64;
    }

    /** How many cells a map has at most, a power of two. */
    public static int cells() {
        int cells = Integer.highestOneBit(entries() - 1) << 2;
        return cells < 16 ? 16 : cells;
    }

    /** Raises IllegalStateException where so many entries are as many as there may be. */
    public static void check(int count) {
        if (count >= entries()) {
            throw new IllegalStateException();
        }
    }
}
