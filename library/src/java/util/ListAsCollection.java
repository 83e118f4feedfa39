package java.util;

/** The elements of a list, without its places and its `equals`. */
final class ListAsCollection<E> extends AbstractCollection<E> {
    private final AbstractList<E> list;

    ListAsCollection(AbstractList<E> list) {
        this.list = list;
    }

    @Override
    public Iterator<E> iterator() {
        return list.iterator();
    }

    @Override
    public int size() {
        return list.size();
    }

    @Override
    public boolean contains(Object element) {
        return list.contains(element);
    }

    @Override
    public Object[] toArray() {
        return list.toArray();
    }
}
