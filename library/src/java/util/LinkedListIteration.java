package java.util;

/** The elements of a LinkedList one after another, in both directions. */
final class LinkedListIteration<E> extends ListIteration<E> {
    /** Begins in front of the element at a place. */
    LinkedListIteration(LinkedList<E> list, int place) {
        super(list, place);
    }

    /** Tells a change of the list before that there is no element. */
    @Override
    public void remove() {
        checkChanges();
        super.remove();
    }
}
