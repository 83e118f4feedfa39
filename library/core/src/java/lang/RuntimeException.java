// For javac alone: the linker brings this class (docs/java.md).
package java.lang;

public class RuntimeException extends Exception {
    public RuntimeException() {
    }

    public RuntimeException(String message) {
        super(message);
    }
}
