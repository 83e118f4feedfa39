package java.util;

/** Elements by places. */
public interface List<E> extends Collection<E> {
    E get(int place);

    E set(int place, E element);

    void add(int place, E element);

    E remove(int place);

    int indexOf(Object element);

    int lastIndexOf(Object element);

    ListIterator<E> listIterator();

    ListIterator<E> listIterator(int place);

    List<E> subList(int first, int end);
}
