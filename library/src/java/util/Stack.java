package java.util;

/** A Vector whose last element is the one on top. */
public class Stack<E> extends Vector<E> {
    public Stack() {
    }

    public E push(E element) {
        addElement(element);
        return element;
    }

    public E pop() {
        E top = peek();
        removeElementAt(size() - 1);
        return top;
    }

    public E peek() {
        int count = size();
        if (count == 0) {
            throw new EmptyStackException();
        }
        return elementAt(count - 1);
    }

    public boolean empty() {
        return size() == 0;
    }

    /** How far an equal element is from the top, which is 1; -1 where there is none. */
    public int search(Object element) {
        int place = lastIndexOf(element);
        return place >= 0 ? size() - place : -1;
    }
}
