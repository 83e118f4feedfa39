package java.util;

/** Elements one after another. */
public interface Iterator<E> {
    boolean hasNext();

    E next();

    /** Removes the element that `next` gave; `tools/adapt` lets classes without this method raise UnsupportedOperationException. */
    void remove();
}
