import java.util.Iterator;
import java.util.NoSuchElementException;
import java.util.function.Function;
import java.util.function.IntSupplier;
import java.util.function.IntUnaryOperator;
import java.util.function.Supplier;

/** Steps that tests/adapt/random chose. */
public class Random6 {
    interface Limits {
        int STEP = 11;
        int[] EDGES = {1, -1, 0};
    }

    interface Shape {
        int area();

        default int twice() {
            return area() * 2 + corners();
        }

        default int corners() {
            return 0;
        }

        static Shape unit() {
            return new Square(1);
        }
    }

    abstract static class Base implements Shape, Limits {
        protected final int side;
        private static int made;

        Base(int side) {
            this.side = side;
            made++;
            grow(made & 1);
        }

        protected void grow(int by) {
            i0 += by + EDGES[by];
        }

        @Override
        public String toString() {
            return getClass() == Square.class ? "square " + side : "shape " + side;
        }
    }

    static class Square extends Base {
        int grown = 3;

        {
            grown += 2;
        }

        Square(int side) {
            super(side);
        }

        @Override
        protected void grow(int by) {
            super.grow(by);
            grown += by;
        }

        @Override
        public int area() {
            return side * side + grown;
        }

        @Override
        public int corners() {
            return 4;
        }

        @Override
        public boolean equals(Object other) {
            return other instanceof Square && ((Square) other).side == side;
        }

        @Override
        public int hashCode() {
            return side;
        }
    }

    static final class Tall extends Square {
        private final long height;

        Tall(int side, long height) {
            super(side + 1);
            this.height = height;
        }

        @Override
        public int area() {
            return (int) (super.area() * height);
        }
    }

    enum Kind {
        FIRST {
            @Override
            int change(int to) {
                return to + 1;
            }
        },
        SECOND, THIRD(5);

        private final int more;

        Kind() {
            this(2);
        }

        Kind(int more) {
            this.more = more;
        }

        int change(int to) {
            return to * more;
        }

        static Kind of(int number) {
            return values()[(number & 3) % 3];
        }
    }

    static final class Box<T> {
        private final T held;

        Box(T held) {
            this.held = held;
        }

        T get() {
            return held;
        }

        @Override
        public boolean equals(Object other) {
            return other instanceof Box && held.equals(((Box<?>) other).held);
        }

        @Override
        public int hashCode() {
            return held.hashCode();
        }

        @Override
        public String toString() {
            return "<" + held + ">";
        }
    }

    static final class Cell {
        private int value;

        Cell(int value) {
            this.value = value;
        }

        int add(int more) {
            return value += more;
        }
    }

    static final class Own extends Exception {
        final int code;

        Own(String message, int code) {
            super(message);
            this.code = code;
        }
    }

    static final class Closing implements AutoCloseable {
        private final int value;

        Closing(int value) {
            this.value = value;
        }

        int turned() {
            return 100 / value;
        }

        @Override
        public void close() {
            System.out.print("closed" + value + " ");
        }
    }

    static final class Range implements Iterable<Integer> {
        private final int end;

        Range(int end) {
            this.end = end;
        }

        @Override
        public Iterator<Integer> iterator() {
            return new Iterator<Integer>() {
                private int next;

                @Override
                public boolean hasNext() {
                    return next < end;
                }

                @Override
                public Integer next() {
                    if (next >= end) {
                        throw new NoSuchElementException();
                    }
                    return next++;
                }
            };
        }
    }

    static final class Rows {
        static int third(int of) {
            return of / 3;
        }
    }

    static final Object LOCK = new Object();
    static int i0 = 3, i1 = -7, i2 = 100;
    static long l0 = 5, l1 = -1L << 40, l2 = 123456789012L;
    static String s0 = "ab", s1 = "", s2 = "FIRST";
    static byte by = 100;
    static short sh = -300;
    static char ch = 'k';
    static int[] numbers = {4, -2, 7, 0};
    static int[][] table = new int[4][2];
    static long[] longs = {1L << 40, -3};
    static Shape[] shapes = new Shape[4];
    static Random6 outer = new Random6();
    int count = 9;

    class Inner {
        final int own;

        Inner(int own) {
            this.own = own;
        }

        int sum() {
            return own + count + Random6.this.count++;
        }
    }

    static Shape shape(final int number) {
        switch (number & 3) {
            case 0:
                return new Square(number);
            case 1:
                return new Tall(number, l0);
            case 2:
                return () -> number ^ 21;
            default:
                return new Shape() {
                    @Override
                    public int area() {
                        return corners() - number;
                    }

                    @Override
                    public int corners() {
                        return 3;
                    }
                };
        }
    }

    static int sum(int... all) {
        int sum = all.length;
        for (int each : all) {
            sum += each;
        }
        return sum;
    }

    static int apply(IntUnaryOperator change, int to) {
        return change.applyAsInt(to);
    }

    static int composed(int to) {
        Function<Integer, Function<Integer, Integer>> add = one -> two -> one + two;
        return add.apply(to).apply(4);
    }

    static IntSupplier chooser(int number) {
        return (number & 1) == 0 ? () -> number : new IntSupplier() {
            private int calls;

            @Override
            public int getAsInt() {
                return ++calls + number;
            }
        };
    }

    static int depth(int left, int value) {
        return left <= 0 ? value : depth(left - 1, value * 3) - depth(left - 2, value + 1);
    }

    static int wide(int one, long two, int three) {
        return (int) (one - (two >> 3) + three);
    }

    static int tick(int by) {
        i1 += by;
        return i1 - 1;
    }

    static int guarded(int value, int by) {
        try {
            return value / by;
        } catch (ArithmeticException raised) {
            return -5;
        } finally {
            tick(1);
        }
    }

    static String name(Object of) {
        return of instanceof Kind ? ((Kind) of).name() : of instanceof Integer ? "int" + of : of instanceof String ? (String) of
            : of == null ? "none" : "other";
    }

    static String word(int number) {
        return (number & 3) == 0 ? "one" : (number & 3) == 1 ? "Aa" : (number & 3) == 2 ? "BB" : s1;
    }

    static String joined(String... all) {
        String whole = "";
        for (String each : all) {
            whole += "," + each;
        }
        return whole;
    }

    static String kind(RuntimeException raised) {
        return raised instanceof IndexOutOfBoundsException ? "index" : raised instanceof ArithmeticException ? "arithmetic"
            : raised instanceof ClassCastException ? "cast" : raised instanceof IllegalArgumentException ? "argument"
            : raised instanceof ArrayStoreException ? "store"
            : raised instanceof NullPointerException ? "null" : raised instanceof NegativeArraySizeException ? "negative" : "other";
    }

    static void tell() {
        s0 = s0.substring(0, Math.min(30, s0.length()));
        s1 = s1.substring(0, Math.min(30, s1.length()));
        s2 = s2.substring(0, Math.min(30, s2.length()));
        System.out.println(" " + i0 + " " + i1 + " " + i2 + " " + l0 + " " + l1 + " " + l2 + " " + s0 + "/" + s1 + "/" + s2
            + " " + by + " " + sh + " " + (int) ch + " "
            + sum(numbers) + " " + longs[0] + " " + longs[1] + " " + outer.count);
    }

    static void step0() {
        try {
            Object[] all = ((l0 >> (1000)) >= (~(7L))) ? new Object[2] : new Integer[2]; all[0] = ((Kind.of(i2).name()) + null + s2); tick(3);
        } catch (RuntimeException raised) {
            System.out.print(kind(raised));
        }
        tell();
    }

    static void step1() {
        try {
            numbers = (((Object) (new Box<Object>(i1 & 7))) == ((Object) (new Box<Object>(i0 & 7)))) ? numbers.clone() : new int[] {(shape((((Object) (LOCK)).hashCode() & 0)).corners()), (+(byte) (s1.length())), i2, (-2)};
        } catch (RuntimeException raised) {
            System.out.print(kind(raised));
        }
        tell();
    }

    static void step2() {
        try {
            sh *= ((int) l0);
        } catch (RuntimeException raised) {
            System.out.print(kind(raised));
        }
        tell();
    }

    static void step3() {
        try {
            i0 -= ((long) wide((Integer.valueOf((-2)).compareTo((1000))), l2, (2147483647)));
        } catch (RuntimeException raised) {
            System.out.print(kind(raised));
        }
        tell();
    }

    static void step4() {
        try {
            try { i1 = numbers[(1000)]; } catch (ArrayIndexOutOfBoundsException raised) { i1 = -1; } finally { tick(2); }
        } catch (RuntimeException raised) {
            System.out.print(kind(raised));
        }
        tell();
    }

    static void step5() {
        try {
            Object[] all = ((longs[(2147483647) & 1]--) >= ((-3L) ^ l1)) ? new Object[2] : new Integer[2]; all[0] = ("caf\u00e9"); tick(3);
        } catch (RuntimeException raised) {
            System.out.print(kind(raised));
        }
        tell();
    }

    static void step6() {
        try {
            s1 += (shape((+(short) (9))).twice());
        } catch (RuntimeException raised) {
            System.out.print(kind(raised));
        }
        tell();
    }

    static void step7() {
        try {
            for (int each : new Range((Kind.valueOf((word((9)))).ordinal()) & 7)) { l2 += each; }
        } catch (RuntimeException raised) {
            System.out.print(kind(raised));
        }
        tell();
    }

    static void step8() {
        try {
            StringBuilder text = new StringBuilder(); for (int k = 0; k < ((shape((Integer.valueOf((2147483647)).compareTo((2147483647)))).corners()) & 7); k++) { text.append(k).append(((String.valueOf(('\u00e9'))).charAt((i0 / (2147483647))))); } s1 = text.toString();
        } catch (RuntimeException raised) {
            System.out.print(kind(raised));
        }
        tell();
    }

    static void step9() {
        try {
            switch (Kind.of(((i1 >> (-2147483648)) / (0)))) { case FIRST: i1++; break; case SECOND: i1 += 2; default: i1 ^= 9; }
        } catch (RuntimeException raised) {
            System.out.print(kind(raised));
        }
        tell();
    }

    static void step10() {
        try {
            l0 %= ((l0 % (-9223372036854775808L)) << (i2 % i2));
        } catch (RuntimeException raised) {
            System.out.print(kind(raised));
        }
        tell();
    }

    static void step11() {
        try {
            for (int[] row : table) { for (int each : row) { i2 ^= each; } }
        } catch (RuntimeException raised) {
            System.out.print(kind(raised));
        }
        tell();
    }

    static void step12() {
        try {
            s0 += (--numbers[(tick(i0)) & 3]);
        } catch (RuntimeException raised) {
            System.out.print(kind(raised));
        }
        tell();
    }

    static void step13() {
        try {
            try { i2 = numbers[(Kind.of((+(char) i1)).change((('7') + i1)))]; } catch (ArrayIndexOutOfBoundsException raised) { i2 = -1; } finally { tick(2); }
        } catch (RuntimeException raised) {
            System.out.print(kind(raised));
        }
        tell();
    }

    static void step14() {
        try {
            for (Kind each : Kind.values()) { i1 = each.change(i1); }
        } catch (RuntimeException raised) {
            System.out.print(kind(raised));
        }
        tell();
    }

    static void step15() {
        try {
            s1 += ('7');
        } catch (RuntimeException raised) {
            System.out.print(kind(raised));
        }
        tell();
    }

    static void step16() {
        try {
            table[i0 & 1][((shape(i1).twice()) * (name(((Object) (LOCK))).length()))] = ((0) % (Kind.of(i2).ordinal()));
        } catch (RuntimeException raised) {
            System.out.print(kind(raised));
        }
        tell();
    }

    static void step17() {
        try {
            i0 %= (i2 - (1000));
        } catch (RuntimeException raised) {
            System.out.print(kind(raised));
        }
        tell();
    }

    static void step18() {
        try {
            ch += (new Object() { int of() { return (sum((1), i0)); } }.of());
        } catch (RuntimeException raised) {
            System.out.print(kind(raised));
        }
        tell();
    }

    static void step19() {
        try {
            outer: for (int a = 0; a < 4; a++) { for (int b = 0; b < 4; b++) { if (a * b > ((-2147483648) & 7)) { continue outer; } if (a + b == (((apply(new Cell(i2)::add, (1))) + i0) & 7)) { break outer; } i2 += a - b; } }
        } catch (RuntimeException raised) {
            System.out.print(kind(raised));
        }
        tell();
    }

    static void step20() {
        try {
            final int kept = i0; IntSupplier late = () -> kept + i0; i0 = late.getAsInt();
        } catch (RuntimeException raised) {
            System.out.print(kind(raised));
        }
        tell();
    }

    static void step21() {
        try {
            try (Closing first = new Closing(((depth((2147483647) & 7, i2)) ^ (+by))); Closing second = new Closing((((Square) ((Object) (new Box<Object>(i0 & 7)))).area()))) { i2 = first.turned() + second.turned(); }
        } catch (RuntimeException raised) {
            System.out.print(kind(raised));
        }
        tell();
    }

    static void step22() {
        try {
            for (Shape each : shapes) { if (each != null) { i0 += each.area(); } }
        } catch (RuntimeException raised) {
            System.out.print(kind(raised));
        }
        tell();
    }

    static void step23() {
        try {
            l2 >>= (Kind.of(i0).change((-2147483648)));
        } catch (RuntimeException raised) {
            System.out.print(kind(raised));
        }
        tell();
    }

    public static void main(String[] arguments) {
        step0();
        step1();
        step2();
        step3();
        step4();
        step5();
        step6();
        step7();
        step8();
        step9();
        step10();
        step11();
        step12();
        step13();
        step14();
        step15();
        step16();
        step17();
        step18();
        step19();
        step20();
        step21();
        step22();
        step23();
    }
}
