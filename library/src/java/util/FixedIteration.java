package java.util;

/** Elements one after another, of which none can be removed. */
class FixedIteration<E> implements Iterator<E> {
    final Object[] elements;
    int place;

    FixedIteration(Object[] elements) {
        this.elements = elements;
    }

    @Override
    public boolean hasNext() {
        return place < elements.length;
    }

    @Override
    public E next() {
        if (place >= elements.length) {
            throw new NoSuchElementException();
        }
        place++;
        return (E) elements[place - 1];
    }

    @Override
    public void remove() {
        throw new UnsupportedOperationException();
    }
}
