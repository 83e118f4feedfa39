package java.util;

import jop.CollectionMethods;
import jop.Text;
import jop.ToTextMethod;

/** Shows a set that can't be changed by this one. It isn't below AbstractSet, so that none of these goes on to another one. */
final class UnmodifiableSet<E> implements Set<E>, CollectionMethods, ToTextMethod {
    /** One without elements. */
    static final Set EMPTY = new UnmodifiableSet<Object>(new HashSet<Object>(1));

    final AbstractSet<E> inner;

    UnmodifiableSet(AbstractSet<E> inner) {
        this.inner = inner;
    }

    @Override
    public int size() {
        return inner.size();
    }

    @Override
    public boolean isEmpty() {
        return inner.isEmpty();
    }

    @Override
    public boolean contains(Object element) {
        return inner.contains(element);
    }

    @Override
    public Object[] toArray() {
        return inner.toArray();
    }

    @Override
    public boolean add(E element) {
        throw new UnsupportedOperationException();
    }

    @Override
    public boolean remove(Object element) {
        throw new UnsupportedOperationException();
    }

    @Override
    public boolean addAll(Collection<? extends E> elements) {
        throw new UnsupportedOperationException();
    }

    @Override
    public void clear() {
        throw new UnsupportedOperationException();
    }

    @Override
    public Iterator<E> iterator() {
        return new FixedIteration<E>(inner.toArray());
    }

    @Override
    public boolean equals(Object other) {
        return other == this || inner.equals(other);
    }

    @Override
    public int hashCode() {
        return inner.hashCode();
    }

    @Override
    public Text toText() {
        return inner.toText();
    }
}
