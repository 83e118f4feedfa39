package java.util;

/** Elements one after another. */
public interface Enumeration<E> {
    boolean hasMoreElements();

    E nextElement();
}
