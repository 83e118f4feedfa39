package java.util;

/** The elements of a ring from either end on; a change of their number meanwhile is told. */
final class RingIteration<E> implements Iterator<E> {
    private final Ring<E> ring;
    private final boolean isBackwards;
    private int place;
    /** Whether the element that `next` gave may be removed. */
    private boolean isGiven;
    private int count;

    RingIteration(Ring<E> ring, boolean isBackwards) {
        this.ring = ring;
        this.isBackwards = isBackwards;
        count = ring.size();
        place = isBackwards ? count - 1 : 0;
    }

    @Override
    public boolean hasNext() {
        return isBackwards ? place >= 0 : place < count;
    }

    @Override
    public E next() {
        if (!hasNext()) {
            throw new NoSuchElementException();
        }
        if (count != ring.size()) {
            throw new ConcurrentModificationException();
        }
        E element = ring.get(place);
        place += isBackwards ? -1 : 1;
        isGiven = true;
        return element;
    }

    @Override
    public void remove() {
        if (!isGiven) {
            throw new IllegalStateException();
        }
        place -= isBackwards ? 0 : 1;
        ring.remove(isBackwards ? place + 1 : place);
        count--;
        isGiven = false;
    }
}
