package java.util;

/** A stack that is empty. */
public class EmptyStackException extends RuntimeException {
    public EmptyStackException() {
    }
}
