package java.util;

/** An array as a list: its elements can be set, and none can be added or removed. */
final class ArrayAsList<E> extends AbstractList<E> implements RandomAccess {
    private final E[] elements;

    ArrayAsList(E[] elements) {
        Objects.requireNonNull(elements);
        this.elements = elements;
    }

    @Override
    public int size() {
        return elements.length;
    }

    @Override
    public E get(int place) {
        return elements[place];
    }

    @Override
    public Iterator<E> iterator() {
        return new ListIteration<E>(this, 0) {
            @Override
            public void remove() {
                throw new UnsupportedOperationException();
            }
        };
    }

    @Override
    public E set(int place, E element) {
        E old = elements[place];
        elements[place] = element;
        return old;
    }
}
