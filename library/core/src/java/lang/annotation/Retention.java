// For javac alone: annotations are passed over by the linker.
package java.lang.annotation;

public @interface Retention {
    RetentionPolicy value();
}
