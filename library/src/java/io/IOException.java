package java.io;

/** An input or an output that failed. */
public class IOException extends Exception {
    public IOException() {
    }

    public IOException(String message) {
        super(message);
    }
}
