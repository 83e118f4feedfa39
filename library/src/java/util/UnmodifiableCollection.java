package java.util;

import jop.Text;
import jop.ToTextMethod;

/** Shows elements that can't be changed by this one. It isn't below AbstractCollection, so that none of these goes on to another one. */
final class UnmodifiableCollection<E> implements Collection<E>, ToTextMethod {
    private final AbstractCollection<E> inner;

    UnmodifiableCollection(AbstractCollection<E> inner) {
        this.inner = inner;
    }

    @Override
    public int size() {
        return inner.size();
    }

    @Override
    public boolean isEmpty() {
        return inner.isEmpty();
    }

    @Override
    public boolean contains(Object element) {
        return inner.contains(element);
    }

    @Override
    public Object[] toArray() {
        return inner.toArray();
    }

    @Override
    public boolean add(E element) {
        throw new UnsupportedOperationException();
    }

    @Override
    public boolean remove(Object element) {
        throw new UnsupportedOperationException();
    }

    @Override
    public boolean addAll(Collection<? extends E> elements) {
        throw new UnsupportedOperationException();
    }

    @Override
    public void clear() {
        throw new UnsupportedOperationException();
    }

    @Override
    public Iterator<E> iterator() {
        return new FixedIteration<E>(inner.toArray());
    }

    @Override
    public Text toText() {
        return inner.toText();
    }
}
