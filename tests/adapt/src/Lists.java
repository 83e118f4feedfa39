import java.util.Iterator;
import java.util.NoSuchElementException;

/** A linked list by hand that can be walked by for. */
public class Lists {
    static final class Chain<T> implements Iterable<T> {
        private Node<T> first;
        private int size;

        private static final class Node<T> {
            final T value;
            Node<T> next;

            Node(T value, Node<T> next) {
                this.value = value;
                this.next = next;
            }
        }

        Chain<T> add(T value) {
            first = new Node<>(value, first);
            size++;
            return this;
        }

        void reverse() {
            Node<T> turned = null;
            for (Node<T> node = first; node != null;) {
                Node<T> next = node.next;
                node.next = turned;
                turned = node;
                node = next;
            }
            first = turned;
        }

        T remove() {
            if (first == null) {
                throw new NoSuchElementException("no element of " + size);
            }
            T value = first.value;
            first = first.next;
            size--;
            return value;
        }

        @Override
        public Iterator<T> iterator() {
            return new Iterator<T>() {
                private Node<T> node = first;

                @Override
                public boolean hasNext() {
                    return node != null;
                }

                @Override
                public T next() {
                    T value = node.value;
                    node = node.next;
                    return value;
                }

                @Override
                public void remove() {
                    throw new UnsupportedOperationException("remove");
                }
            };
        }
    }

    /** Numbers that can't be removed. */
    static final class Count implements Iterator<int[]> {
        private final int[] last = {0};

        @Override
        public boolean hasNext() {
            return last[0] < 3;
        }

        @Override
        public int[] next() {
            last[0]++;
            return last;
        }
    }

    static String removed(Iterator<?> from) {
        try {
            from.next();
            from.remove();
            return "removed";
        } catch (UnsupportedOperationException e) {
            return e.getMessage();
        }
    }

    public static void main(String[] args) {
        System.out.println(removed(new Count()) + removed(new Chain<String>().add("x").iterator()));
        Chain<String> chain = new Chain<>();
        chain.add("one").add("two").add("three");
        for (String word : chain) {
            System.out.print(word + " ");
        }
        chain.reverse();
        for (String word : chain) {
            System.out.print(word.length());
        }
        System.out.println(chain.remove() + chain.remove() + chain.size + chain.remove());
        try {
            chain.remove();
        } catch (NoSuchElementException e) {
            System.out.println(e.getMessage());
        }
        Iterator<int[]> numbers = new Chain<int[]>().add(new int[] {4, 5}).iterator();
        System.out.println(numbers.next()[1] + " " + numbers.hasNext());
        try {
            numbers.next();
        } catch (NullPointerException e) {
            System.out.println("end");
        }
    }
}
