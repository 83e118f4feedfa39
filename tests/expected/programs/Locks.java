import jop.Io;

/** Synchronized methods and blocks, left by a return and by an exception. */
public class Locks {
    private int count;
    private static int all;

    private synchronized int next() {
        return ++count;
    }

    private static synchronized void more(int by) {
        all += by;
    }

    private void twice(Object lock) {
        synchronized (lock) {
            synchronized (this) {
                more(next());
                more(next());
            }
        }
    }

    public static void main(String[] arguments) {
        Locks locks = new Locks();
        locks.twice(new int[0]);
        try {
            locks.twice(null);
        } catch (NullPointerException fault) {
            Io.write('n');
        }
        Io.write(all);
        Io.write(locks.next());
    }
}
