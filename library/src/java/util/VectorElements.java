package java.util;

/** The elements of a Vector one after another. */
final class VectorElements<E> implements Enumeration<E> {
    private final Vector<E> list;
    private int place;

    VectorElements(Vector<E> list) {
        this.list = list;
    }

    @Override
    public boolean hasMoreElements() {
        return place < list.elementCount;
    }

    @Override
    public E nextElement() {
        if (place >= list.elementCount) {
            throw new NoSuchElementException();
        }
        E element = list.elementOfIteration(place);
        place++;
        return element;
    }
}
