// For javac alone: the linker brings this class (docs/java.md).
package java.lang;

public class NullPointerException extends RuntimeException {
    public NullPointerException() {
    }

    public NullPointerException(String message) {
        super(message);
    }
}
