// For javac alone: the linker brings this class (docs/java.md).
package java.lang;

public class Error extends Throwable {
    public Error() {
    }

    public Error(String message) {
        super(message);
    }
}
