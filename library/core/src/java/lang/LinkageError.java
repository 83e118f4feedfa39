// For javac alone: the linker brings this class (docs/java.md).
package java.lang;

public class LinkageError extends Error {
    public LinkageError() {
    }

    public LinkageError(String message) {
        super(message);
    }
}
