import jop.Io;

/** Ends by an exception that nobody catches. */
public class Uncaught {
    static class Fault extends RuntimeException {
        Fault(String message) {
            super(message);
        }
    }

    private static void raise(int depth) {
        if (depth == 0) {
            throw new Fault("fault");
        }
        try {
            raise(depth - 1);
        } finally {
            Io.write(depth);
        }
    }

    public static void main(String[] arguments) {
        Io.write('u');
        raise(3);
        Io.write('!');
    }
}
