import jop.Io;

/** Switches of both kinds, nested loops that are left by labels, and conditions. */
public class Branches {
    private static int table(int x) {
        switch (x) {
            case -1: return 'a';
            case 0: return 'b';
            case 1: x = 9;
            case 2: return x + 'c';
            default: return 'd';
        }
    }

    private static int lookup(int x) {
        switch (x) {
            case Integer.MIN_VALUE: return 'e';
            case 100: return 'f';
            case 100000: return 'g';
            case Integer.MAX_VALUE: return 'h';
            default: return 'i';
        }
    }

    private static int pairs(int limit) {
        int count = 0;
        outer:
        for (int i = 0; i < limit; i++) {
            for (int j = i; ; j += 2) {
                if (j > limit) {
                    continue outer;
                }
                if (i * j > 40) {
                    break outer;
                }
                do {
                    count++;
                } while (count % 3 != 0);
            }
        }
        return count;
    }

    public static void main(String[] arguments) {
        for (int x = -2; x < 4; x++) {
            Io.write(table(x));
        }
        int[] keys = {Integer.MIN_VALUE, 100, 100000, Integer.MAX_VALUE, 0, 101};
        for (int key : keys) {
            Io.write(lookup(key));
        }
        Io.write(pairs(9));
    }
}
