package java.util;

import jop.CollectionMethods;
import jop.Text;
import jop.ToTextMethod;

/** What lists have in common, over `get` and `size`; those that change override `set`, `add` and `remove` of a place. */
public abstract class AbstractList<E> implements List<E>, CollectionMethods, ToTextMethod {
    /** How often elements were added or removed. */
    protected int modCount;

    protected AbstractList() {
    }

    @Override
    public abstract E get(int place);

    @Override
    public abstract int size();

    /** The element at a place, as iterations and searches find it: in a list that stands in an array the one there, though a class below it has another `get`. */
    E elementOfIteration(int place) {
        return get(place);
    }

    @Override
    public E set(int place, E element) {
        throw new UnsupportedOperationException();
    }

    @Override
    public void add(int place, E element) {
        throw new UnsupportedOperationException();
    }

    @Override
    public E remove(int place) {
        throw new UnsupportedOperationException();
    }

    @Override
    public boolean add(E element) {
        add(size(), element);
        return true;
    }

    @Override
    public boolean isEmpty() {
        return size() == 0;
    }

    @Override
    public int indexOf(Object element) {
        int count = size();
        for (int i = 0; i < count; i++) { //@WCA loop=64 elements
            if (Objects.equals(element, elementOfIteration(i))) {
                return i;
            }
        }
        return -1;
    }

    @Override
    public int lastIndexOf(Object element) {
        for (int i = size() - 1; i >= 0; i--) { //@WCA loop=64 elements
            if (Objects.equals(element, elementOfIteration(i))) {
                return i;
            }
        }
        return -1;
    }

    @Override
    public boolean contains(Object element) {
        return indexOf(element) >= 0;
    }

    @Override
    public boolean remove(Object element) {
        int place = indexOf(element);
        if (place < 0) {
            return false;
        }
        remove(place);
        return true;
    }

    /** Adds the elements behind the last one, in their order. */
    @Override
    public boolean addAll(Collection<? extends E> elements) {
        Object[] added = elements.toArray();
        for (int i = 0; i < added.length; i++) { //@WCA loop=64 elements
            E element = (E) added[i];
            add(element);
        }
        return added.length > 0;
    }

    @Override
    public void clear() {
        for (int i = size() - 1; i >= 0; i--) { //@WCA loop=64 elements
            remove(i);
        }
    }

    @Override
    public Object[] toArray() {
        Object[] all = new Object[size()];
        for (int i = 0; i < all.length; i++) { //@WCA loop=64 elements
            all[i] = elementOfIteration(i);
        }
        return all;
    }

    @Override
    public Iterator<E> iterator() {
        return new ListIteration<E>(this, 0);
    }

    @Override
    public ListIterator<E> listIterator() {
        return listIterator(0);
    }

    /** Begins in front of the element at a place. */
    @Override
    public ListIterator<E> listIterator(int place) {
        checkStart(place, size());
        return new ListIteration<E>(this, place);
    }

    /** Raises an exception where a list of so many elements has no such place, and doesn't end there. */
    static void checkStart(int place, int count) {
        if (place < 0 || place > count) {
            throw new IndexOutOfBoundsException();
        }
    }

    /** Raises an exception where a list of so many elements has no such part. */
    static void checkPart(int first, int end, int count) {
        if (first < 0 || end > count) {
            throw new IndexOutOfBoundsException();
        }
        if (first > end) {
            throw new IllegalArgumentException();
        }
    }

    /** Shows the elements from a place up to another one. */
    @Override
    public List<E> subList(int first, int end) {
        checkPart(first, end, size());
        return new SubList<E>(this, first, end);
    }

    /** Whether the other object is a list of equal elements. */
    @Override
    public boolean equals(Object other) {
        if (!(other instanceof List)) {
            return false;
        }
        List<?> list = (List<?>) other;
        int count = size();
        if (list.size() != count) {
            return false;
        }
        for (int i = 0; i < count; i++) { //@WCA loop=64 elements
            if (!Objects.equals(elementOfIteration(i), list.get(i))) {
                return false;
            }
        }
        return true;
    }

    @Override
    public int hashCode() {
        return Arrays.hashCode(toArray());
    }

    @Override
    public Text toText() {
        return Arrays.toString(toArray());
    }
}
