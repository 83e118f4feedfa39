package java.util;

import java.io.Serializable;
import jop.Copies;

/** A list in an array that grows by half. */
public class ArrayList<E> extends AbstractList<E> implements RandomAccess, Cloneable, Serializable {
    private Object[] elements;
    private int count;

    public ArrayList() {
        this(10);
    }

    public ArrayList(int capacity) {
        if (capacity < 0) {
            throw new IllegalArgumentException();
        }
        elements = new Object[capacity];
    }

    public ArrayList(Collection<? extends E> all) {
        elements = all.toArray();
        count = elements.length;
    }

    public void ensureCapacity(int least) {
        if (least > elements.length) {
            int grown = elements.length + (elements.length >> 1);
            Object[] others = new Object[least > grown ? least : grown];
            Copies.copy(elements, 0, others, 0, count);
            elements = others;
        }
    }

    @Override
    public int size() {
        return count;
    }

    /** Raises ArrayIndexOutOfBoundsException for a place outside. */
    @Override
    public E get(int place) {
        return (E) elements[place < count ? place : -1];
    }

    @Override
    E elementOfIteration(int place) {
        return (E) elements[place < count ? place : -1];
    }

    @Override
    public E set(int place, E element) {
        E old = elementOfIteration(place);
        elements[place] = element;
        return old;
    }

    @Override
    public boolean add(E element) {
        modCount++;
        ensureCapacity(count + 1);
        elements[count] = element;
        count++;
        return true;
    }

    @Override
    public void add(int place, E element) {
        if (place < 0 || place > count) {
            throw new IndexOutOfBoundsException();
        }
        modCount++;
        ensureCapacity(count + 1);
        Copies.copy(elements, place, elements, place + 1, count - place);
        elements[place] = element;
        count++;
    }

    @Override
    public E remove(int place) {
        E old = elementOfIteration(place);
        close(place);
        return old;
    }

    @Override
    public boolean remove(Object element) {
        for (int i = 0; i < count; i++) { //@WCA loop=64 elements
            if (Objects.equals(element, elements[i])) {
                close(i);
                return true;
            }
        }
        return false;
    }

    /** Takes the element at a place away. */
    private void close(int place) {
        modCount++;
        count--;
        Copies.copy(elements, place + 1, elements, place, count - place);
        elements[count] = null;
    }

    /** Adds the elements behind the last one, in their order. */
    @Override
    public boolean addAll(Collection<? extends E> added) {
        Object[] all = added.toArray();
        modCount++;
        ensureCapacity(count + all.length);
        Copies.copy(all, 0, elements, count, all.length);
        count += all.length;
        return all.length > 0;
    }

    /** A list of the same elements. */
    public Object clone() {
        ArrayList<E> copy = (ArrayList<E>) jop.Objects.ofKind(this, new ArrayList<E>(0));
        copy.elements = new Object[count];
        Copies.copy(elements, 0, copy.elements, 0, count);
        copy.count = count;
        copy.modCount = 0;
        return copy;
    }

    @Override
    public void clear() {
        modCount++;
        for (int i = 0; i < count; i++) { //@WCA loop=64 elements
            elements[i] = null;
        }
        count = 0;
    }

    @Override
    public Object[] toArray() {
        Object[] all = new Object[count];
        Copies.copy(elements, 0, all, 0, count);
        return all;
    }
}
