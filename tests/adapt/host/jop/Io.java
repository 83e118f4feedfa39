package jop;

/** What stands for the core class of this name on a Java virtual machine. */
public final class Io {
    private Io() {
    }

    /** The next byte of standard input, or -1. */
    public static int read() {
        try {
            return System.in.read();
        } catch (java.io.IOException e) {
            throw new IllegalStateException();
        }
    }

    /** Puts the low eight bits on standard output. */
    public static void write(int b) {
        System.out.write(b);
        System.out.flush();
    }
}
