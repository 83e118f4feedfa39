package java.util;

/** What lists have in common that find an element by those before it, over `listIterator` of a place and `size`. */
public abstract class AbstractSequentialList<E> extends AbstractList<E> {
    protected AbstractSequentialList() {
    }

    @Override
    public abstract ListIterator<E> listIterator(int place);

    /** One in front of the element at a place. Raises IndexOutOfBoundsException where there is none. */
    private ListIterator<E> before(int place) {
        ListIterator<E> each = listIterator(place);
        if (!each.hasNext()) {
            throw new IndexOutOfBoundsException();
        }
        return each;
    }

    @Override
    public E get(int place) {
        return before(place).next();
    }

    @Override
    public E set(int place, E element) {
        ListIterator<E> each = before(place);
        E old = each.next();
        each.set(element);
        return old;
    }

    @Override
    public void add(int place, E element) {
        listIterator(place).add(element);
    }

    @Override
    public E remove(int place) {
        ListIterator<E> each = before(place);
        E old = each.next();
        each.remove();
        return old;
    }

    @Override
    public Iterator<E> iterator() {
        return listIterator();
    }
}
