package java.util;

import java.io.Serializable;

/** Elements with two ends, none of them null, in an array that is doubled where it is full. */
public class ArrayDeque<E> extends AbstractCollection<E> implements Deque<E>, Cloneable, Serializable {
    private Ring<E> ring = new Ring<E>();

    public ArrayDeque() {
    }

    /** As the one without a number. */
    public ArrayDeque(int capacity) {
    }

    public ArrayDeque(Collection<? extends E> elements) {
        addAll(elements);
    }

    @Override
    public int size() {
        return ring.size();
    }

    @Override
    public Iterator<E> descendingIterator() {
        return new RingIteration<E>(ring, true);
    }

    @Override
    public Iterator<E> iterator() {
        return new RingIteration<E>(ring, false);
    }

    @Override
    public boolean contains(Object element) {
        return ring.indexOf(element) >= 0;
    }

    @Override
    public boolean remove(Object element) {
        return removeFirstOccurrence(element);
    }

    @Override
    public Object[] toArray() {
        return ring.toArray();
    }

    @Override
    public void clear() {
        ring.clear();
    }

    @Override
    public boolean add(E element) {
        addLast(element);
        return true;
    }

    @Override
    public void addFirst(E element) {
        Objects.requireNonNull(element);
        ring.addFirst(element);
    }

    @Override
    public void addLast(E element) {
        Objects.requireNonNull(element);
        ring.addLast(element);
    }

    @Override
    public boolean offer(E element) {
        return add(element);
    }

    @Override
    public boolean offerFirst(E element) {
        addFirst(element);
        return true;
    }

    @Override
    public boolean offerLast(E element) {
        return add(element);
    }

    @Override
    public void push(E element) {
        addFirst(element);
    }

    @Override
    public E removeFirst() {
        if (ring.size() == 0) {
            throw new NoSuchElementException();
        }
        return pollFirst();
    }

    @Override
    public E removeLast() {
        if (ring.size() == 0) {
            throw new NoSuchElementException();
        }
        return pollLast();
    }

    @Override
    public E getFirst() {
        if (ring.size() == 0) {
            throw new NoSuchElementException();
        }
        return ring.peekFirst();
    }

    @Override
    public E getLast() {
        if (ring.size() == 0) {
            throw new NoSuchElementException();
        }
        return ring.peekLast();
    }

    @Override
    public E pollFirst() {
        return ring.pollFirst();
    }

    @Override
    public E pollLast() {
        return ring.pollLast();
    }

    @Override
    public E peekFirst() {
        return ring.peekFirst();
    }

    @Override
    public E peekLast() {
        return ring.peekLast();
    }

    @Override
    public E remove() {
        return removeFirst();
    }

    @Override
    public E pop() {
        return removeFirst();
    }

    @Override
    public E poll() {
        return pollFirst();
    }

    @Override
    public E element() {
        return getFirst();
    }

    @Override
    public E peek() {
        return ring.peekFirst();
    }

    /** One of the same elements. */
    public ArrayDeque<E> clone() {
        ArrayDeque<E> copy = (ArrayDeque<E>) jop.Objects.ofKind(this, new ArrayDeque<E>());
        copy.ring = ring.copied();
        return copy;
    }

    @Override
    public boolean removeFirstOccurrence(Object element) {
        return removeAt(ring.indexOf(element));
    }

    @Override
    public boolean removeLastOccurrence(Object element) {
        return removeAt(ring.lastIndexOf(element));
    }

    private boolean removeAt(int place) {
        if (place >= 0) {
            ring.remove(place);
        }
        return place >= 0;
    }
}
