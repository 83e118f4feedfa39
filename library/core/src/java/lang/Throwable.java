// For javac alone: the linker brings this class (docs/java.md).
package java.lang;

public class Throwable implements java.io.Serializable {
    public Throwable() {
    }

    public Throwable(String message) {
    }

    public String getMessage() {
        return null;
    }
}
