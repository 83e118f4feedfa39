package java.util;

import java.io.Serializable;

/** A list whose elements are these for good. */
final class FixedList<E> extends AbstractList<E> implements RandomAccess, Serializable {
    private final Object[] elements;

    FixedList(Object[] elements) {
        this.elements = elements;
    }

    @Override
    public int size() {
        return elements.length;
    }

    /** Raises ArrayIndexOutOfBoundsException for a place outside. */
    @Override
    public E get(int place) {
        return (E) elements[place];
    }
}
