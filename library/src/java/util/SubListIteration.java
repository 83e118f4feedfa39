package java.util;

/** The elements of a part of a list one after another, in both directions. */
final class SubListIteration<E> implements ListIterator<E> {
    private final SubList<E> list;
    private int changes;
    private int place;
    /** The place of the element that `next` or `previous` gave and that wasn't removed; -1 where there is none. */
    private int last = -1;

    /** Begins in front of the element at a place. */
    SubListIteration(SubList<E> list, int place) {
        this.list = list;
        this.place = place;
        changes = list.changes;
    }

    @Override
    public boolean hasNext() {
        return place != list.count;
    }

    @Override
    public E next() {
        checkChanges();
        if (place >= list.size()) {
            throw new NoSuchElementException();
        }
        last = place;
        place++;
        return list.get(last);
    }

    @Override
    public boolean hasPrevious() {
        return place != 0;
    }

    @Override
    public E previous() {
        checkChanges();
        if (place <= 0) {
            throw new NoSuchElementException();
        }
        E element = list.get(place - 1);
        place--;
        last = place;
        return element;
    }

    @Override
    public int nextIndex() {
        return place;
    }

    @Override
    public int previousIndex() {
        return place - 1;
    }

    @Override
    public void remove() {
        checkGiven();
        list.remove(last);
        place = last;
        last = -1;
        changes = list.changes;
    }

    @Override
    public void set(E element) {
        checkGiven();
        list.set(last, element);
    }

    @Override
    public void add(E element) {
        checkChanges();
        list.add(place, element);
        place++;
        last = -1;
        changes = list.changes;
    }

    private void checkGiven() {
        if (last < 0) {
            throw new IllegalStateException();
        }
        checkChanges();
    }

    private void checkChanges() {
        if (changes != list.changes) {
            throw new ConcurrentModificationException();
        }
    }
}
