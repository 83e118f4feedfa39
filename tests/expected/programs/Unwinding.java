import jop.Io;

/** An exception through five frames, of which some have something to do on the way. */
public class Unwinding {
    private static class Fault extends Exception {
        final int code;

        Fault(int code) {
            this.code = code;
        }
    }

    private static void first(int code) throws Fault {
        if (code > 0) {
            throw new Fault(code);
        }
        Io.write('n');
    }

    private static void second(int code) throws Fault {
        try {
            first(code);
        } finally {
            Io.write('2');
        }
    }

    private static void third(int code) throws Fault {
        try {
            second(code);
        } catch (RuntimeException other) {
            Io.write('!');
        }
        Io.write('3');
    }

    private static void fourth(int code) throws Fault {
        try {
            third(code);
        } catch (Fault fault) {
            Io.write('4');
            throw fault;
        } finally {
            Io.write('f');
        }
    }

    private static int fifth(int code) {
        try {
            fourth(code);
            return 0;
        } catch (Fault fault) {
            return fault.code;
        } finally {
            Io.write('5');
        }
    }

    public static void main(String[] arguments) {
        Io.write(fifth(7));
        Io.write(fifth(0));
        try {
            throw new IllegalStateException("state");
        } catch (RuntimeException fault) {
            Io.write(fault.getMessage().length());
        }
    }
}
