/** Exceptions: try, catch and finally within one another, synchronized blocks and methods, and a constructor that throws. */
public class Guard {
    static class Refused extends Exception {
        final int why;
        Refused(int why) { super("refused"); this.why = why; }
    }

    private int held;
    private final Object lock = new Object();

    Guard(int held) throws Refused {
        super();
        if (held < 0) { throw new Refused(held); }
        this.held = held;
    }

    int take(int n) throws Refused {
        synchronized (lock) {
            if (n > held) { throw new Refused(n - held); }
            held -= n;
            return held;
        }
    }

    synchronized int count(int[] items, int index) {
        int seen = 0;
        try {
            seen = items[index];
            try {
                seen /= index;
            } catch (ArithmeticException fault) {
                seen = -1;
            } finally {
                held++;
            }
            return seen;
        } catch (ArrayIndexOutOfBoundsException fault) {
            return fault.getMessage() == null ? -2 : -3;
        } finally {
            synchronized (items) { held += seen; }
        }
    }

    static int tries(int limit) {
        int done = 0;
        for (int i = 0; i < limit; i++) {
            try {
                Guard guard = new Guard(i - 1);
                done += guard.take(1);
            } catch (Refused refused) {
                if (refused.why > 3) { break; }
                continue;
            } catch (RuntimeException other) {
                throw other;
            } finally {
                done++;
            }
        }
        return done;
    }

    public static void main(String[] args) throws Refused {
        int[] items = { 4, 5, 6 };
        Guard guard = new Guard(2);
        int sum = guard.count(items, 0) + guard.count(items, 2) + guard.count(items, 3) + tries(5);
        if (sum == 0) { throw new Error("none"); }
    }
}
