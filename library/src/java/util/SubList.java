package java.util;

import jop.CollectionMethods;
import jop.Text;
import jop.ToTextMethod;

/**
 * Some neighbouring elements of a list, which is changed by this one. It isn't below AbstractList, so that none of these goes on to another one;
 * a part of a part is one of the whole list, so its changes make the part that it was taken of invalid.
 */
final class SubList<E> extends AbstractCollection<E> implements List<E>, RandomAccess, CollectionMethods, ToTextMethod {
    private final AbstractList<E> inner;
    private final int first;
    int count;
    /** How often elements of the whole list were added or removed when this one was made, or changed last. */
    int changes;

    SubList(AbstractList<E> inner, int first, int end) {
        this.inner = inner;
        this.first = first;
        this.count = end - first;
        this.changes = inner.modCount;
    }

    @Override
    public List<E> subList(int from, int end) {
        AbstractList.checkPart(from, end, size());
        return new SubList<E>(inner, first + from, first + end);
    }

    private void checkChanges() {
        if (changes != inner.modCount) {
            throw new ConcurrentModificationException();
        }
    }

    /** The place in the whole list; raises IndexOutOfBoundsException for one outside. */
    private int whole(int place, int end) {
        if (place < 0 || place >= end) {
            throw new IndexOutOfBoundsException();
        }
        checkChanges();
        return first + place;
    }

    @Override
    public int size() {
        checkChanges();
        return count;
    }

    @Override
    public E get(int place) {
        return inner.get(whole(place, count));
    }

    @Override
    public E set(int place, E element) {
        return inner.set(whole(place, count), element);
    }

    @Override
    public void add(int place, E element) {
        inner.add(whole(place, count + 1), element);
        count++;
        changes = inner.modCount;
    }

    @Override
    public boolean add(E element) {
        add(count, element);
        return true;
    }

    @Override
    public E remove(int place) {
        E removed = inner.remove(whole(place, count));
        count--;
        changes = inner.modCount;
        return removed;
    }

    @Override
    public void clear() {
        for (int i = size() - 1; i >= 0; i--) { //@WCA loop=64 elements
            remove(i);
        }
    }

    @Override
    public int indexOf(Object element) {
        int end = size();
        for (int i = 0; i < end; i++) { //@WCA loop=64 elements
            if (Objects.equals(element, get(i))) {
                return i;
            }
        }
        return -1;
    }

    @Override
    public int lastIndexOf(Object element) {
        for (int i = size() - 1; i >= 0; i--) { //@WCA loop=64 elements
            if (Objects.equals(element, get(i))) {
                return i;
            }
        }
        return -1;
    }

    @Override
    public boolean contains(Object element) {
        return indexOf(element) >= 0;
    }

    @Override
    public boolean remove(Object element) {
        int place = indexOf(element);
        if (place >= 0) {
            remove(place);
        }
        return place >= 0;
    }

    @Override
    public Object[] toArray() {
        Object[] all = new Object[size()];
        for (int i = 0; i < all.length; i++) { //@WCA loop=64 elements
            all[i] = get(i);
        }
        return all;
    }

    @Override
    public Iterator<E> iterator() {
        checkChanges();
        return new SubListIteration<E>(this, 0);
    }

    @Override
    public ListIterator<E> listIterator() {
        return listIterator(0);
    }

    @Override
    public ListIterator<E> listIterator(int place) {
        AbstractList.checkStart(place, size());
        return new SubListIteration<E>(this, place);
    }

    /** Whether the other object is a list of equal elements. */
    @Override
    public boolean equals(Object other) {
        return other == this || other instanceof List && Arrays.equals(toArray(), ((List<?>) other).toArray());
    }

    @Override
    public int hashCode() {
        return Arrays.hashCode(toArray());
    }

    @Override
    public Text toText() {
        return Arrays.toString(toArray());
    }
}
