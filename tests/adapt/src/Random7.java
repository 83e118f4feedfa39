import java.util.Iterator;
import java.util.NoSuchElementException;
import java.util.function.Function;
import java.util.function.IntSupplier;
import java.util.function.IntUnaryOperator;
import java.util.function.Supplier;

/** Steps that tests/adapt/random chose. */
public class Random7 {
    interface Limits {
        int STEP = 11;
        int[] EDGES = {1, -1, 0};
    }

    interface Shape {
        int area();

        default int twice() {
            return area() * 2 + corners();
        }

        default int corners() {
            return 0;
        }

        static Shape unit() {
            return new Square(1);
        }
    }

    abstract static class Base implements Shape, Limits {
        protected final int side;
        private static int made;

        Base(int side) {
            this.side = side;
            made++;
            grow(made & 1);
        }

        protected void grow(int by) {
            i0 += by + EDGES[by];
        }

        @Override
        public String toString() {
            return getClass() == Square.class ? "square " + side : "shape " + side;
        }
    }

    static class Square extends Base {
        int grown = 3;

        {
            grown += 2;
        }

        Square(int side) {
            super(side);
        }

        @Override
        protected void grow(int by) {
            super.grow(by);
            grown += by;
        }

        @Override
        public int area() {
            return side * side + grown;
        }

        @Override
        public int corners() {
            return 4;
        }

        @Override
        public boolean equals(Object other) {
            return other instanceof Square && ((Square) other).side == side;
        }

        @Override
        public int hashCode() {
            return side;
        }
    }

    static final class Tall extends Square {
        private final long height;

        Tall(int side, long height) {
            super(side + 1);
            this.height = height;
        }

        @Override
        public int area() {
            return (int) (super.area() * height);
        }
    }

    enum Kind {
        FIRST {
            @Override
            int change(int to) {
                return to + 1;
            }
        },
        SECOND, THIRD(5);

        private final int more;

        Kind() {
            this(2);
        }

        Kind(int more) {
            this.more = more;
        }

        int change(int to) {
            return to * more;
        }

        static Kind of(int number) {
            return values()[(number & 3) % 3];
        }
    }

    static final class Box<T> {
        private final T held;

        Box(T held) {
            this.held = held;
        }

        T get() {
            return held;
        }

        @Override
        public boolean equals(Object other) {
            return other instanceof Box && held.equals(((Box<?>) other).held);
        }

        @Override
        public int hashCode() {
            return held.hashCode();
        }

        @Override
        public String toString() {
            return "<" + held + ">";
        }
    }

    static final class Cell {
        private int value;

        Cell(int value) {
            this.value = value;
        }

        int add(int more) {
            return value += more;
        }
    }

    static final class Own extends Exception {
        final int code;

        Own(String message, int code) {
            super(message);
            this.code = code;
        }
    }

    static final class Closing implements AutoCloseable {
        private final int value;

        Closing(int value) {
            this.value = value;
        }

        int turned() {
            return 100 / value;
        }

        @Override
        public void close() {
            System.out.print("closed" + value + " ");
        }
    }

    static final class Range implements Iterable<Integer> {
        private final int end;

        Range(int end) {
            this.end = end;
        }

        @Override
        public Iterator<Integer> iterator() {
            return new Iterator<Integer>() {
                private int next;

                @Override
                public boolean hasNext() {
                    return next < end;
                }

                @Override
                public Integer next() {
                    if (next >= end) {
                        throw new NoSuchElementException();
                    }
                    return next++;
                }
            };
        }
    }

    static final class Rows {
        static int third(int of) {
            return of / 3;
        }
    }

    static final Object LOCK = new Object();
    static int i0 = 3, i1 = -7, i2 = 100;
    static long l0 = 5, l1 = -1L << 40, l2 = 123456789012L;
    static String s0 = "ab", s1 = "", s2 = "FIRST";
    static byte by = 100;
    static short sh = -300;
    static char ch = 'k';
    static int[] numbers = {4, -2, 7, 0};
    static int[][] table = new int[4][2];
    static long[] longs = {1L << 40, -3};
    static Shape[] shapes = new Shape[4];
    static Random7 outer = new Random7();
    int count = 9;

    class Inner {
        final int own;

        Inner(int own) {
            this.own = own;
        }

        int sum() {
            return own + count + Random7.this.count++;
        }
    }

    static Shape shape(final int number) {
        switch (number & 3) {
            case 0:
                return new Square(number);
            case 1:
                return new Tall(number, l0);
            case 2:
                return () -> number ^ 21;
            default:
                return new Shape() {
                    @Override
                    public int area() {
                        return corners() - number;
                    }

                    @Override
                    public int corners() {
                        return 3;
                    }
                };
        }
    }

    static int sum(int... all) {
        int sum = all.length;
        for (int each : all) {
            sum += each;
        }
        return sum;
    }

    static int apply(IntUnaryOperator change, int to) {
        return change.applyAsInt(to);
    }

    static int composed(int to) {
        Function<Integer, Function<Integer, Integer>> add = one -> two -> one + two;
        return add.apply(to).apply(4);
    }

    static IntSupplier chooser(int number) {
        return (number & 1) == 0 ? () -> number : new IntSupplier() {
            private int calls;

            @Override
            public int getAsInt() {
                return ++calls + number;
            }
        };
    }

    static int depth(int left, int value) {
        return left <= 0 ? value : depth(left - 1, value * 3) - depth(left - 2, value + 1);
    }

    static int wide(int one, long two, int three) {
        return (int) (one - (two >> 3) + three);
    }

    static int tick(int by) {
        i1 += by;
        return i1 - 1;
    }

    static int guarded(int value, int by) {
        try {
            return value / by;
        } catch (ArithmeticException raised) {
            return -5;
        } finally {
            tick(1);
        }
    }

    static String name(Object of) {
        return of instanceof Kind ? ((Kind) of).name() : of instanceof Integer ? "int" + of : of instanceof String ? (String) of
            : of == null ? "none" : "other";
    }

    static String word(int number) {
        return (number & 3) == 0 ? "one" : (number & 3) == 1 ? "Aa" : (number & 3) == 2 ? "BB" : s1;
    }

    static String joined(String... all) {
        String whole = "";
        for (String each : all) {
            whole += "," + each;
        }
        return whole;
    }

    static String kind(RuntimeException raised) {
        return raised instanceof IndexOutOfBoundsException ? "index" : raised instanceof ArithmeticException ? "arithmetic"
            : raised instanceof ClassCastException ? "cast" : raised instanceof IllegalArgumentException ? "argument"
            : raised instanceof ArrayStoreException ? "store"
            : raised instanceof NullPointerException ? "null" : raised instanceof NegativeArraySizeException ? "negative" : "other";
    }

    static void tell() {
        s0 = s0.substring(0, Math.min(30, s0.length()));
        s1 = s1.substring(0, Math.min(30, s1.length()));
        s2 = s2.substring(0, Math.min(30, s2.length()));
        System.out.println(" " + i0 + " " + i1 + " " + i2 + " " + l0 + " " + l1 + " " + l2 + " " + s0 + "/" + s1 + "/" + s2
            + " " + by + " " + sh + " " + (int) ch + " "
            + sum(numbers) + " " + longs[0] + " " + longs[1] + " " + outer.count);
    }

    static void step0() {
        try {
            i2 = (sum());
        } catch (RuntimeException raised) {
            System.out.print(kind(raised));
        }
        tell();
    }

    static void step1() {
        try {
            i2 /= (0);
        } catch (RuntimeException raised) {
            System.out.print(kind(raised));
        }
        tell();
    }

    static void step2() {
        try {
            i2 /= ((false) ? (1000) : i2);
        } catch (RuntimeException raised) {
            System.out.print(kind(raised));
        }
        tell();
    }

    static void step3() {
        try {
            final int kept = ((sum()) / i0); IntSupplier late = () -> kept + i1; i1 = late.getAsInt();
        } catch (RuntimeException raised) {
            System.out.print(kind(raised));
        }
        tell();
    }

    static void step4() {
        try {
            int turns = 0; while (turns++ < ((1000) & 7)) { if (((true) || (true))) { continue; } i2 += turns; }
        } catch (RuntimeException raised) {
            System.out.print(kind(raised));
        }
        tell();
    }

    static void step5() {
        try {
            ch++;
        } catch (RuntimeException raised) {
            System.out.print(kind(raised));
        }
        tell();
    }

    static void step6() {
        try {
            Runnable twice = () -> { i0 += (+(Integer) ((Object) (Character.valueOf(('7'))))); tick(1); }; twice.run(); twice.run();
        } catch (RuntimeException raised) {
            System.out.print(kind(raised));
        }
        tell();
    }

    static void step7() {
        try {
            Object[] all = (true) ? new Object[2] : new Integer[2]; all[0] = ((name(((Object) (LOCK)))) + new Box<Integer>(((1000) % (-2147483648)))); tick(3);
        } catch (RuntimeException raised) {
            System.out.print(kind(raised));
        }
        tell();
    }

    static void step8() {
        try {
            switch (Kind.of((numbers[(1000) & 3] += (Shape.unit().area())))) { case FIRST: i2++; break; case SECOND: i2 += 2; default: i2 ^= 9; }
        } catch (RuntimeException raised) {
            System.out.print(kind(raised));
        }
        tell();
    }

    static void step9() {
        try {
            switch (Kind.of((Kind.of((-2)).ordinal()))) { case FIRST: i2++; break; case SECOND: i2 += 2; default: i2 ^= 9; }
        } catch (RuntimeException raised) {
            System.out.print(kind(raised));
        }
        tell();
    }

    static void step10() {
        try {
            synchronized (LOCK) { i0++; }
        } catch (RuntimeException raised) {
            System.out.print(kind(raised));
        }
        tell();
    }

    static void step11() {
        try {
            i2 /= ((joined(("caf\u00e9"), s2, s1)).length());
        } catch (RuntimeException raised) {
            System.out.print(kind(raised));
        }
        tell();
    }

    static void step12() {
        try {
            i2 ^= (((true) && (false)) ? (9) : (chooser((-2147483648)).getAsInt()));
        } catch (RuntimeException raised) {
            System.out.print(kind(raised));
        }
        tell();
    }

    static void step13() {
        try {
            int turns = 0; while (turns++ < ((Limits.STEP + ((int) l0)) & 7)) { if ((true)) { continue; } i1 += turns; }
        } catch (RuntimeException raised) {
            System.out.print(kind(raised));
        }
        tell();
    }

    static void step14() {
        try {
            outer.count += (+(short) (9)); i2 = outer.count;
        } catch (RuntimeException raised) {
            System.out.print(kind(raised));
        }
        tell();
    }

    static void step15() {
        try {
            for (Shape each : shapes) { if (each != null) { i1 += each.area(); } }
        } catch (RuntimeException raised) {
            System.out.print(kind(raised));
        }
        tell();
    }

    static void step16() {
        try {
            l1 += (apply(Rows::third, (--numbers[i2 & 3])));
        } catch (RuntimeException raised) {
            System.out.print(kind(raised));
        }
        tell();
    }

    static void step17() {
        try {
            Long boxed = ((long) wide((sum()), (longs[i2 & 1]--), i0)); boxed += i2; l0 = boxed;
        } catch (RuntimeException raised) {
            System.out.print(kind(raised));
        }
        tell();
    }

    static void step18() {
        try {
            for (Shape each : shapes) { if (each != null) { i0 += each.area(); } }
        } catch (RuntimeException raised) {
            System.out.print(kind(raised));
        }
        tell();
    }

    static void step19() {
        try {
            switch (word(i1)) { case "one": i0 = 1; break; case "Aa": case "BB": i0 = 2; break; default: l0 -= 3; }
        } catch (RuntimeException raised) {
            System.out.print(kind(raised));
        }
        tell();
    }

    static void step20() {
        try {
            i1 = i1++ + ++i1 - (i1 -= (1));
        } catch (RuntimeException raised) {
            System.out.print(kind(raised));
        }
        tell();
    }

    static void step21() {
        try {
            for (int each : new Range(((9) ^ ((0) & (-2))) & 7)) { l2 += each; }
        } catch (RuntimeException raised) {
            System.out.print(kind(raised));
        }
        tell();
    }

    static void step22() {
        try {
            l2 >>= ((((Object) (LOCK)) == ((Object) (LOCK))) ? (+(short) i2) : ((int) l2));
        } catch (RuntimeException raised) {
            System.out.print(kind(raised));
        }
        tell();
    }

    static void step23() {
        try {
            StringBuilder text = new StringBuilder(); for (int k = 0; k < ((((Square) ((Object) (Kind.of(i1)))).area()) & 7); k++) { text.append(k).append(('7')); } s2 = text.toString();
        } catch (RuntimeException raised) {
            System.out.print(kind(raised));
        }
        tell();
    }

    public static void main(String[] arguments) {
        step0();
        step1();
        step2();
        step3();
        step4();
        step5();
        step6();
        step7();
        step8();
        step9();
        step10();
        step11();
        step12();
        step13();
        step14();
        step15();
        step16();
        step17();
        step18();
        step19();
        step20();
        step21();
        step22();
        step23();
    }
}
