package java.util;

import java.io.Serializable;

/** A list with two ends. It stands in an array that is doubled where it is full, so that any place is found at once. */
public class LinkedList<E> extends AbstractList<E> implements Deque<E>, Cloneable, Serializable {
    private Ring<E> ring = new Ring<E>();

    public LinkedList() {
    }

    public LinkedList(Collection<? extends E> elements) {
        addAll(elements);
    }

    @Override
    public int size() {
        return ring.size();
    }

    @Override
    public Iterator<E> iterator() {
        return listIterator(0);
    }

    @Override
    public ListIterator<E> listIterator(int place) {
        checkStart(place, size());
        return new LinkedListIteration<E>(this, place);
    }

    @Override
    public Iterator<E> descendingIterator() {
        return new RingIteration<E>(ring, true);
    }

    @Override
    public E get(int place) {
        return ring.get(place);
    }

    @Override
    E elementOfIteration(int place) {
        return ring.get(place);
    }

    @Override
    public E set(int place, E element) {
        return ring.set(place, element);
    }

    @Override
    public void add(int place, E element) {
        ring.add(place, element);
        modCount++;
    }

    @Override
    public E remove(int place) {
        E old = ring.remove(place);
        modCount++;
        return old;
    }

    @Override
    public int indexOf(Object element) {
        return ring.indexOf(element);
    }

    @Override
    public int lastIndexOf(Object element) {
        return ring.lastIndexOf(element);
    }

    @Override
    public Object[] toArray() {
        return ring.toArray();
    }

    @Override
    public void clear() {
        modCount++;
        ring.clear();
    }

    @Override
    public boolean add(E element) {
        addLast(element);
        return true;
    }

    @Override
    public void addFirst(E element) {
        modCount++;
        ring.addFirst(element);
    }

    @Override
    public void addLast(E element) {
        modCount++;
        ring.addLast(element);
    }

    @Override
    public boolean offer(E element) {
        return add(element);
    }

    @Override
    public boolean offerFirst(E element) {
        addFirst(element);
        return true;
    }

    @Override
    public boolean offerLast(E element) {
        return add(element);
    }

    @Override
    public void push(E element) {
        addFirst(element);
    }

    @Override
    public E removeFirst() {
        if (ring.size() == 0) {
            throw new NoSuchElementException();
        }
        return pollFirst();
    }

    @Override
    public E removeLast() {
        if (ring.size() == 0) {
            throw new NoSuchElementException();
        }
        return pollLast();
    }

    @Override
    public E getFirst() {
        if (ring.size() == 0) {
            throw new NoSuchElementException();
        }
        return ring.peekFirst();
    }

    @Override
    public E getLast() {
        if (ring.size() == 0) {
            throw new NoSuchElementException();
        }
        return ring.peekLast();
    }

    @Override
    public E pollFirst() {
        modCount += ring.size() == 0 ? 0 : 1;
        return ring.pollFirst();
    }

    @Override
    public E pollLast() {
        modCount += ring.size() == 0 ? 0 : 1;
        return ring.pollLast();
    }

    @Override
    public E peekFirst() {
        return ring.peekFirst();
    }

    @Override
    public E peekLast() {
        return ring.peekLast();
    }

    @Override
    public E remove() {
        return removeFirst();
    }

    @Override
    public E pop() {
        return removeFirst();
    }

    @Override
    public E poll() {
        return pollFirst();
    }

    @Override
    public E element() {
        return getFirst();
    }

    @Override
    public E peek() {
        return ring.peekFirst();
    }

    /** A list of the same elements. */
    public Object clone() {
        LinkedList<E> copy = (LinkedList<E>) jop.Objects.ofKind(this, new LinkedList<E>());
        copy.ring = new Ring<E>();
        copy.modCount = 0;
        Object[] all = ring.toArray();
        for (int i = 0; i < all.length; i++) { //@WCA loop=64 elements
            copy.add((E) all[i]);
        }
        return copy;
    }

    /** Adds the elements behind the last one, in their order. */
    @Override
    public boolean addAll(Collection<? extends E> elements) {
        Object[] added = elements.toArray();
        for (int i = 0; i < added.length; i++) { //@WCA loop=64 elements
            ring.addLast((E) added[i]);
        }
        modCount += added.length == 0 ? 0 : 1;
        return added.length > 0;
    }

    @Override
    public boolean removeFirstOccurrence(Object element) {
        return removeAt(ring.indexOf(element));
    }

    @Override
    public boolean removeLastOccurrence(Object element) {
        return removeAt(ring.lastIndexOf(element));
    }

    private boolean removeAt(int place) {
        if (place >= 0) {
            remove(place);
        }
        return place >= 0;
    }
}
