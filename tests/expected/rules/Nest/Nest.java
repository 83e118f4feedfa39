/** Inner classes that reach private members of one another, an anonymous class, and a nested class that is generic. */
public class Nest {
    private int total;
    private static long calls = 1L;

    interface Step { int apply(int x); }

    class Inner {
        private int own = total + 1;
        int sum() { total += own; calls++; return total + new Deeper().twice(); }
        class Deeper { int twice() { return own * 2 + total; } }
    }

    static class Box<T> {
        private T item;
        Box(T item) { this.item = item; }
        T get() { return item; }
        static <U> Box<U> of(U item) { return new Box<U>(item); }
    }

    Step adder(final int by) {
        return new Step() {
            public int apply(int x) { return x + by + total; }
        };
    }

    public static void main(String[] args) {
        Nest nest = new Nest();
        Inner inner = nest.new_inner();
        int found = inner.sum() + nest.adder(3).apply(4);
        Box<String> box = Box.of("nest");
        String text = box.get();
        Object any = box;
        if (any instanceof Box && text.length() == 4) { Box<?> other = (Box<?>) any; found += other.get() == text ? 1 : 0; }
        calls = calls + found;
    }

    Inner new_inner() { return this.new Inner(); }
}
