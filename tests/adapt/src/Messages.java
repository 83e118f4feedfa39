/** Literals alone: no string is made, so those of the linker stay. */
public class Messages {
    private static final String[] NAMES = {"zero", "one", "two"};

    static void put(String text) {
        for (int k = 0; k < text.length(); k++) {
            jop.Io.write(text.charAt(k));
        }
    }

    static final class Fault extends Exception {
        private static final long serialVersionUID = 1;

        Fault(String text) {
            super(text);
        }
    }

    static int[][] counts = new int[2][3];

    static long check(long x) throws Fault {
        if (x > 2) {
            throw new Fault("too large");
        }
        counts[(int) (x % 2)][(int) x]++;
        return x * x;
    }

    public static void main(String[] args) {
        for (long x = 0; x < 5; x++) {
            try {
                jop.Io.write((int) ('0' + check(x)));
                put(NAMES[(int) x]);
            } catch (Fault e) {
                put(e.getMessage());
            }
        }
        jop.Io.write('0' + counts.clone()[1][1]);
    }
}
