/** Loops one within the other, of which one note can't speak. */
public class Nested {
    static int left;

    /** One header for both loops: the body of the outer one begins with the test of the inner one. */
    static void waits(int count) {
        do {
            while (left > 0) { // @WCA loop=3
                left--;
            }
            left = 3;
            count--;
        } while (count > 0);
    }

    /** Two headers of one line: that of the outer loop is the start of the inner one. */
    static void counts(int count) {
        do {
            for (int i = left; i < 3; i++) { // @WCA loop=3
                left = i - 2;
            }
            left = 0;
            count--;
        } while (count > 0);
    }

    /** One header, where nothing but a return leaves the outer loop. */
    static void polls(int count) {
        while (true) {
            while (left > 0) { // @WCA loop=3
                left--;
            }
            left = 3;
            if (count-- == 0) {
                return;
            }
        }
    }

    private static final boolean ALWAYS = true;

    /** The same with a test that the compiler leaves out. */
    static void spins(int count) {
        while (ALWAYS) {
            while (left > 0) { // @WCA loop=3
                left--;
            }
            left = 3;
            if (count-- == 0) {
                return;
            }
        }
    }

    public static void main(String[] arguments) {
        waits(3);
        counts(3);
        polls(3);
        spins(3);
    }
}
