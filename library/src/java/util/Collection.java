package java.util;

/** Elements. */
public interface Collection<E> extends Iterable<E> {
    int size();

    boolean isEmpty();

    boolean contains(Object element);

    Object[] toArray();

    boolean add(E element);

    boolean remove(Object element);

    boolean addAll(Collection<? extends E> elements);

    void clear();
}
