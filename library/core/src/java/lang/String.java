// For javac alone: the linker brings this class (docs/java.md).
package java.lang;

public final class String implements java.io.Serializable {
    private String() {
    }

    public int length() {
        return 0;
    }

    public char charAt(int index) {
        return 0;
    }
}
