package java.util;

/** Elements in an array whose end goes on at its begin; it is doubled where it is full. */
final class Ring<E> {
    private Object[] elements = new Object[16];
    private int first;
    private int count;

    /** Another one of the same elements. */
    Ring<E> copied() {
        Ring<E> copy = new Ring<E>();
        copy.elements = new Object[elements.length];
        put(copy.elements);
        copy.count = count;
        return copy;
    }

    int size() {
        return count;
    }

    /** The cell of the element at a place, counted from the first one; one behind the last is the next free cell. */
    private int cell(int place) {
        int cell = first + place;
        return cell >= elements.length ? cell - elements.length : cell;
    }

    /** Raises IndexOutOfBoundsException for a place outside. */
    E get(int place) {
        check(place);
        return (E) elements[cell(place)];
    }

    E set(int place, E element) {
        E old = get(place);
        elements[cell(place)] = element;
        return old;
    }

    private void check(int place) {
        if (place < 0 || place >= count) {
            throw new IndexOutOfBoundsException();
        }
    }

    private void ensureRoom() {
        if (count == elements.length) {
            Object[] all = new Object[2 * count];
            put(all);
            elements = all;
            first = 0;
        }
    }

    private void put(Object[] to) {
        for (int i = 0; i < count; i++) { //@WCA loop=64 elements
            to[i] = elements[cell(i)];
        }
    }

    void addFirst(E element) {
        ensureRoom();
        first = first == 0 ? elements.length - 1 : first - 1;
        elements[first] = element;
        count++;
    }

    void addLast(E element) {
        ensureRoom();
        elements[cell(count)] = element;
        count++;
    }

    void add(int place, E element) {
        if (place < 0 || place > count) {
            throw new IndexOutOfBoundsException();
        }
        addLast(element);
        for (int i = count - 1; i > place; i--) { //@WCA loop=64 elements
            elements[cell(i)] = elements[cell(i - 1)];
        }
        elements[cell(place)] = element;
    }

    /** Null where there is none. */
    E pollFirst() {
        E old = peekFirst();
        if (count > 0) {
            elements[first] = null;
            first = cell(1);
            count--;
        }
        return old;
    }

    E pollLast() {
        E old = peekLast();
        if (count > 0) {
            count--;
            elements[cell(count)] = null;
        }
        return old;
    }

    E peekFirst() {
        return count == 0 ? null : (E) elements[first];
    }

    E peekLast() {
        return count == 0 ? null : (E) elements[cell(count - 1)];
    }

    E remove(int place) {
        E old = get(place);
        for (int i = place; i < count - 1; i++) { //@WCA loop=64 elements
            elements[cell(i)] = elements[cell(i + 1)];
        }
        pollLast();
        return old;
    }

    void clear() {
        while (count > 0) { //@WCA loop=64 elements
            pollLast();
        }
    }

    Object[] toArray() {
        Object[] all = new Object[count];
        put(all);
        return all;
    }

    /** The first place of an equal element; -1 where there is none. */
    int indexOf(Object element) {
        for (int i = 0; i < count; i++) { //@WCA loop=64 elements
            if (Objects.equals(element, elements[cell(i)])) {
                return i;
            }
        }
        return -1;
    }

    int lastIndexOf(Object element) {
        for (int i = count - 1; i >= 0; i--) { //@WCA loop=64 elements
            if (Objects.equals(element, elements[cell(i)])) {
                return i;
            }
        }
        return -1;
    }
}
