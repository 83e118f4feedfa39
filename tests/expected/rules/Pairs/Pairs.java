/** Generic classes and interfaces with bridge methods, arrays of them, and loops over them. */
public class Pairs {
    interface Order<T> { int compare(T a, T b); }

    static class Pair<A, B> {
        final A first;
        final B second;
        Pair(A first, B second) { this.first = first; this.second = second; }
        <C> Pair<A, C> with(C other) { return new Pair<A, C>(first, other); }
    }

    static class Number implements Order<Number> {
        int value;
        Number(int value) { this.value = value; }
        public int compare(Number a, Number b) { return a.value < b.value ? -1 : a.value == b.value ? 0 : 1; }
    }

    static abstract class Shape {
        abstract long area();
        Shape larger(Shape other) { return area() >= other.area() ? this : other; }
    }

    static class Square extends Shape {
        private final int side;
        Square(int side) { super(); this.side = side; }
        long area() { return (long) side + square(side); }
        private static long square(int n) { long s = 0; for (int i = 0; i < n; i++) { s += n; } return s; }
    }

    static <T> int greatest(T[] items, Order<T> order) {
        int best = 0;
        for (int i = 1; i < items.length; i++) {
            if (order.compare(items[i], items[best]) > 0) { best = i; }
        }
        return best;
    }

    public static void main(String[] args) {
        Number[] numbers = { new Number(3), new Number(5), new Number(4) };
        int best = greatest(numbers, numbers[0]);
        Pair<String, Number> pair = new Pair<String, Number>("best", numbers[best]);
        Pair<String, int[]> other = pair.with(new int[] { 1, 2, 3 });
        Shape[][] shapes = new Shape[2][];
        shapes[0] = new Shape[] { new Square(2), null };
        Shape shape = shapes[0][0].larger(shapes[0][1] == null ? new Square(other.second.length) : shapes[0][1]);
        long area = shape.area() + pair.second.value;
        outer:
        for (int i = 0; ; i++) {
            for (int j = 0; j < 4; j++) {
                if (i + j > area) { break outer; }
                if (j == 2) { continue outer; }
            }
        }
    }
}
