// For javac alone: javac wants the class to be there; no program may name it.
package java.lang;

public final class Class<T> {
}
