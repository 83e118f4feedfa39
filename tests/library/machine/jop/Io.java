package jop;

import java.io.IOException;

/**
 * Stands for the core class of this name where javac compiles against it, and on a Java virtual machine. It isn't linked: `jop link` has
 * its own.
 */
public final class Io {
    private Io() {}

    /** The next byte of the input, or -1 at its end. */
    public static int read() {
        try {
            return System.in.read();
        } catch (IOException fault) {
            return -1;
        }
    }

    /** Puts the low eight bits out. */
    public static void write(int level) {
        System.out.write(level);
        System.out.flush();
    }
}
