// For javac alone: the linker brings this class (docs/java.md).
package java.io;

public interface Serializable {
}
