package java.util;

/** Elements one after another, in both directions, none of which can be changed. */
final class FixedListIteration<E> extends FixedIteration<E> implements ListIterator<E> {
    /** Begins in front of the element at a place. */
    FixedListIteration(Object[] elements, int place) {
        super(elements);
        this.place = place;
    }

    @Override
    public boolean hasPrevious() {
        return place > 0;
    }

    @Override
    public E previous() {
        if (place <= 0) {
            throw new NoSuchElementException();
        }
        place--;
        return (E) elements[place];
    }

    @Override
    public int nextIndex() {
        return place;
    }

    @Override
    public int previousIndex() {
        return place - 1;
    }

    @Override
    public void set(E element) {
        throw new UnsupportedOperationException();
    }

    @Override
    public void add(E element) {
        throw new UnsupportedOperationException();
    }
}
