package plant;

import jop.Io;

/** Reads levels into a list of a length that is read, and puts their sum out. */
public class Tank {
    private static final int MOST = 4;

    static int[] levels(int count) {
        int[] levels = new int[count];
        for (int i = 0; i < levels.length; i++) { // @WCA loop=4
            levels[i] = Io.read();
        }
        return levels;
    }

    static int sum(int[] levels) {
        int sum = 0;
        for (int level : levels) { //@ loop <= 4
            sum += level;
        }
        return sum;
    }

    public static void main(String[] arguments) {
        Io.write(sum(levels(Range.least(Io.read(), MOST))));
    }
}

/** Numbers within a range. */
class Range {
    static int least(int a, int b) {
        return a < b ? a : b;
    }
}
