package java.nio;

/** A buffer has fewer elements. */
public class BufferUnderflowException extends RuntimeException {
    public BufferUnderflowException() {
    }
}
