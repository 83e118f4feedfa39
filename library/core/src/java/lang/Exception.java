// For javac alone: the linker brings this class (docs/java.md).
package java.lang;

public class Exception extends Throwable {
    public Exception() {
    }

    public Exception(String message) {
        super(message);
    }
}
