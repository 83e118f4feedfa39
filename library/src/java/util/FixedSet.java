package java.util;

/** A set whose elements are these for good. */
final class FixedSet<E> extends AbstractSet<E> {
    private final Object[] elements;

    FixedSet(Object[] elements) {
        this.elements = elements;
    }

    @Override
    public Iterator<E> iterator() {
        return new FixedIteration<E>(elements);
    }

    @Override
    public int size() {
        return elements.length;
    }
}
