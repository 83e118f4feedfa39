package java.util;

import java.io.Serializable;
import jop.Copies;

/** A list in an array that is doubled, or grows by a number that was given; with the names that methods had before there were lists. */
public class Vector<E> extends AbstractList<E> implements RandomAccess, Cloneable, Serializable {
    protected Object[] elementData;
    protected int elementCount;
    protected int capacityIncrement;

    public Vector() {
        this(10);
    }

    public Vector(int capacity) {
        this(capacity, 0);
    }

    public Vector(int capacity, int increment) {
        if (capacity < 0) {
            throw new IllegalArgumentException();
        }
        elementData = new Object[capacity];
        capacityIncrement = increment;
    }

    public Vector(Collection<? extends E> all) {
        elementData = all.toArray();
        elementCount = elementData.length;
    }

    public int capacity() {
        return elementData.length;
    }

    public void ensureCapacity(int least) {
        if (least > 0) {
            modCount++;
            makeRoom(least);
        }
    }

    private void makeRoom(int least) {
        int length = elementData.length;
        if (least > length) {
            int grown = length + (capacityIncrement > 0 ? capacityIncrement : length);
            keep(Math.max(least, grown));
        }
    }

    private void keep(int capacity) {
        Object[] others = new Object[capacity];
        Copies.copy(elementData, 0, others, 0, elementCount);
        elementData = others;
    }

    public void trimToSize() {
        modCount++;
        if (elementCount < elementData.length) {
            keep(elementCount);
        }
    }

    /** Takes the elements from a length on away, or adds null up to it. */
    public void setSize(int length) {
        modCount++;
        makeRoom(length);
        for (int i = length; i < elementCount; i++) { //@WCA loop=64 elements
            elementData[i] = null;
        }
        elementCount = length;
    }

    @Override
    public int size() {
        return elementCount;
    }

    @Override
    public boolean isEmpty() {
        return elementCount == 0;
    }

    /** Raises ArrayIndexOutOfBoundsException for a place outside. */
    @Override
    E elementOfIteration(int place) {
        return (E) elementData[place < elementCount ? place : -1];
    }

    @Override
    public E get(int place) {
        return (E) elementData[place < elementCount ? place : -1];
    }

    public E elementAt(int place) {
        return elementOfIteration(place);
    }

    public E firstElement() {
        checkElement();
        return (E) elementData[0];
    }

    public E lastElement() {
        checkElement();
        return (E) elementData[elementCount - 1];
    }

    private void checkElement() {
        if (elementCount == 0) {
            throw new NoSuchElementException();
        }
    }

    @Override
    public E set(int place, E element) {
        E old = elementOfIteration(place);
        elementData[place] = element;
        return old;
    }

    public void setElementAt(E element, int place) {
        elementOfIteration(place);
        elementData[place] = element;
    }

    @Override
    public boolean add(E element) {
        append(element);
        return true;
    }

    public void addElement(E element) {
        append(element);
    }

    private void append(E element) {
        modCount++;
        makeRoom(elementCount + 1);
        elementData[elementCount] = element;
        elementCount++;
    }

    @Override
    public void add(int place, E element) {
        insertElementAt(element, place);
    }

    public void insertElementAt(E element, int place) {
        if (place > elementCount) {
            throw new ArrayIndexOutOfBoundsException();
        }
        modCount++;
        makeRoom(elementCount + 1);
        Copies.copy(elementData, place, elementData, place + 1, elementCount - place);
        elementData[place] = element;
        elementCount++;
    }

    /** Adds the elements behind the last one, in their order. */
    @Override
    public boolean addAll(Collection<? extends E> added) {
        Object[] all = added.toArray();
        modCount++;
        makeRoom(elementCount + all.length);
        Copies.copy(all, 0, elementData, elementCount, all.length);
        elementCount += all.length;
        return all.length > 0;
    }

    @Override
    public E remove(int place) {
        E old = elementOfIteration(place);
        close(place);
        return old;
    }

    public void removeElementAt(int place) {
        elementOfIteration(place);
        close(place);
    }

    /** Takes the element at a place away. */
    private void close(int place) {
        modCount++;
        elementCount--;
        Copies.copy(elementData, place + 1, elementData, place, elementCount - place);
        elementData[elementCount] = null;
    }

    @Override
    public boolean remove(Object element) {
        return removeElement(element);
    }

    public boolean removeElement(Object element) {
        modCount++;
        int place = indexOf(element);
        if (place >= 0) {
            removeElementAt(place);
        }
        return place >= 0;
    }

    @Override
    public void clear() {
        removeAllElements();
    }

    public void removeAllElements() {
        modCount++;
        for (int i = 0; i < elementCount; i++) { //@WCA loop=64 elements
            elementData[i] = null;
        }
        elementCount = 0;
    }

    @Override
    public boolean contains(Object element) {
        return indexOf(element, 0) >= 0;
    }

    @Override
    public int indexOf(Object element) {
        return indexOf(element, 0);
    }

    /** The first place of an equal element from one on; -1 where there is none. */
    public int indexOf(Object element, int first) {
        for (int i = first; i < elementCount; i++) { //@WCA loop=64 elements
            if (Objects.equals(element, elementData[i])) {
                return i;
            }
        }
        return -1;
    }

    @Override
    public int lastIndexOf(Object element) {
        return lastIndexOf(element, elementCount - 1);
    }

    /** The last place of an equal element up to one; -1 where there is none. */
    public int lastIndexOf(Object element, int last) {
        if (last >= elementCount) {
            throw new IndexOutOfBoundsException();
        }
        for (int i = last; i >= 0; i--) { //@WCA loop=64 elements
            if (Objects.equals(element, elementData[i])) {
                return i;
            }
        }
        return -1;
    }

    @Override
    public Object[] toArray() {
        Object[] all = new Object[elementCount];
        Copies.copy(elementData, 0, all, 0, elementCount);
        return all;
    }

    public void copyInto(Object[] to) {
        System.arraycopy(elementData, 0, to, 0, elementCount);
    }

    /** The elements one after another; a change meanwhile isn't told. */
    public Enumeration<E> elements() {
        return new VectorElements<E>(this);
    }

    /** A list of the same elements. */
    public Object clone() {
        Vector<E> copy = (Vector<E>) jop.Objects.ofKind(this, new Vector<E>(0, capacityIncrement));
        copy.elementData = toArray();
        copy.elementCount = elementCount;
        copy.modCount = 0;
        return copy;
    }
}
