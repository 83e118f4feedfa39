/** Loops that a note speaks of alone, though control goes back to them from several lines, or other loops stand closely before. */
public class Single {
    static int left;

    /** One loop with a `continue`. */
    static int skips(int x) {
        while (x > 0) { // @WCA loop=9
            if (x == 3) {
                x -= 2;
                continue;
            }
            x--;
        }
        return x;
    }

    /** One loop without a test of its own, whose body begins with a choice. */
    static int chooses(int x) {
        while (true) {
            if (x < 3) { // @WCA loop=9
                if (x == 0) {
                    return 0;
                }
                x--;
                continue;
            }
            x -= 2;
        }
    }

    /** One loop without a test of its own. */
    static int reads(int x) {
        for (;;) {
            int y = jop.Io.read(); // @WCA loop=9
            if (y < 0) {
                break;
            }
            if (y == 7) {
                continue;
            }
            x += y;
        }
        return x;
    }

    /** Two loops, each with a test, so with a header and a line of its own. */
    static int nests(int x) {
        for (int i = 0; i < 3; i++) { // @WCA loop=3
            while (left > i) { // @WCA loop=9
                left--;
                if (left == 4) {
                    left = 3;
                }
            }
        }
        if (x > 3) {
            x--;
        }
        while (x > 0) { // @WCA loop=9
            x--;
            if (x == 4) {
                x = 3;
            }
        }
        do {
            x++; // @WCA loop=9
            while (left > 0) { // @WCA loop=9
                left--;
            }
        } while (x < 0);
        return x;
    }

    public static void main(String[] arguments) {
        jop.Io.write(skips(3) + chooses(3) + reads(3) + nests(3));
    }
}
