package java.nio;

/** A buffer has no room. */
public class BufferOverflowException extends RuntimeException {
    public BufferOverflowException() {
    }
}
