// For javac alone: annotations are passed over by the linker.
package java.lang;

public @interface FunctionalInterface {
}
