package java.util;

import jop.CollectionMethods;
import jop.Text;
import jop.ToTextMethod;

/** Shows a list that can't be changed by this one. It isn't below AbstractList, so that none of these goes on to another one. */
final class UnmodifiableList<E> implements List<E>, RandomAccess, CollectionMethods, ToTextMethod {
    final AbstractList<E> inner;

    UnmodifiableList(AbstractList<E> inner) {
        this.inner = inner;
    }

    @Override
    public int size() {
        return inner.size();
    }

    @Override
    public boolean isEmpty() {
        return inner.isEmpty();
    }

    @Override
    public boolean contains(Object element) {
        return inner.contains(element);
    }

    @Override
    public Object[] toArray() {
        return inner.toArray();
    }

    @Override
    public boolean add(E element) {
        throw new UnsupportedOperationException();
    }

    @Override
    public boolean remove(Object element) {
        throw new UnsupportedOperationException();
    }

    @Override
    public boolean addAll(Collection<? extends E> elements) {
        throw new UnsupportedOperationException();
    }

    @Override
    public void clear() {
        throw new UnsupportedOperationException();
    }

    @Override
    public Iterator<E> iterator() {
        return new FixedIteration<E>(inner.toArray());
    }

    @Override
    public boolean equals(Object other) {
        return other == this || inner.equals(other);
    }

    @Override
    public int hashCode() {
        return inner.hashCode();
    }

    @Override
    public Text toText() {
        return inner.toText();
    }

    @Override
    public E get(int place) {
        return inner.get(place);
    }

    @Override
    public E set(int place, E element) {
        throw new UnsupportedOperationException();
    }

    @Override
    public void add(int place, E element) {
        throw new UnsupportedOperationException();
    }

    @Override
    public E remove(int place) {
        throw new UnsupportedOperationException();
    }

    @Override
    public int indexOf(Object element) {
        return inner.indexOf(element);
    }

    @Override
    public int lastIndexOf(Object element) {
        return inner.lastIndexOf(element);
    }

    @Override
    public ListIterator<E> listIterator() {
        return listIterator(0);
    }

    /** The elements that there are now. */
    @Override
    public ListIterator<E> listIterator(int place) {
        AbstractList.checkStart(place, inner.size());
        return new FixedListIteration<E>(inner.toArray(), place);
    }

    /** The elements that there are now. */
    @Override
    public List<E> subList(int first, int end) {
        return new UnmodifiableList<E>(new FixedList<E>(inner.subList(first, end).toArray()));
    }
}
