package jop;

import java.io.ByteArrayOutputStream;

/** What stands for the core class of this name on a Java virtual machine: it keeps what is put out. */
public class Io {
    public static final ByteArrayOutputStream OUT = new ByteArrayOutputStream();

    public static int read() {
        return -1;
    }

    public static void write(int value) {
        OUT.write(value);
    }
}
