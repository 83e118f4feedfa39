/** Generic classes with bridge methods, bounded types and covariant results. */
public class Generics {
    static abstract class Shape<S extends Shape<S>> implements Comparable<S> {
        abstract int size();

        abstract S scaled(int by);

        @Override
        public int compareTo(S other) {
            return Integer.compare(size(), other.size());
        }
    }

    static final class Box extends Shape<Box> {
        private final int side;

        Box(int side) {
            this.side = side;
        }

        @Override
        int size() {
            return side;
        }

        @Override
        Box scaled(int by) {
            return new Box(side * by);
        }
    }

    static final class Pair<A, B> {
        final A one;
        final B two;

        Pair(A one, B two) {
            this.one = one;
            this.two = two;
        }

        Pair<B, A> swapped() {
            return new Pair<>(two, one);
        }

        @Override
        public String toString() {
            return one + "/" + two;
        }

        @Override
        public boolean equals(Object other) {
            return other instanceof Pair && one.equals(((Pair<?, ?>) other).one) && two.equals(((Pair<?, ?>) other).two);
        }

        @Override
        public int hashCode() {
            return one.hashCode() * 31 + two.hashCode();
        }
    }

    static <T extends Comparable<? super T>> void sort(T[] all) {
        for (int k = 1; k < all.length; k++) {
            for (int j = k; j > 0 && all[j - 1].compareTo(all[j]) > 0; j--) {
                T each = all[j];
                all[j] = all[j - 1];
                all[j - 1] = each;
            }
        }
    }

    @SafeVarargs
    static <T> T last(T... all) {
        return all[all.length - 1];
    }

    public static void main(String[] args) {
        Box[] boxes = {new Box(5), new Box(2).scaled(4), new Box(3)};
        sort(boxes);
        System.out.println(boxes[0].side + " " + boxes[1].side + " " + boxes[2].side + " " + last("a", "b", "c") + last(boxes).side);
        Pair<String, Pair<String, String>> pair = new Pair<>("x", new Pair<>("y", "z"));
        System.out.println(pair + " " + pair.swapped() + " " + pair.equals(pair.swapped().swapped()) + (pair.hashCode() == "x".hashCode() * 31));
        System.out.println(pair.swapped().one.swapped().hashCode() + " " + pair.equals(null));
    }
}
