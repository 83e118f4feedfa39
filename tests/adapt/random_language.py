"""Random steps over the language: classes, interfaces, enums, lambdas, exceptions, arrays and all operators, for tests/adapt/random."""

# Expressions by their type: `{i}` and the like stand for expressions of that type, `{u}` for
# a number that no other expression has.
EXPRESSIONS = {
    "int": [
        "{i} + {i}", "{i} - {i}", "{i} * {i}", "{i} / {i}", "{i} % {i}", "{i} & {i}", "{i} | {i}", "{i} ^ {i}", "{i} << {i}", "{i} >> {i}", "{i} >>> {i}",
        "-{i}", "~{i}", "{b} ? {i} : {i}", "(int) {l}", "+(byte) {i}", "+(short) {i}", "+(char) {i}", "{c} + {i}", "{s}.length()", "shape({i}).area()",
        "shape({i}).twice()", "Shape.unit().area()", "shape({i}).corners()", "new Cell(({i} & 7)).add({i})", "sum()", "sum({i}, {i})", "sum({i}, {i}, {i})",
        "Kind.of({i}).change({i})", "Kind.of({i}).ordinal()", "Kind.valueOf({s}).ordinal()", "apply(each{u} -> each{u} * 3 + {i}, {i})",
        "apply(Rows::third, {i})",
        "apply(new Cell({i})::add, {i})", "depth({i} & 7, {i})", "table[{i} & 3][{i} & 1]", "numbers[{i}]", "guarded({i}, {i})", "+new Box<Integer>({i}).get()",
        "Integer.valueOf({i}).compareTo({i})", "numbers[{i} & 3]++", "--numbers[{i} & 3]", "numbers[{i} & 3] += {i}", "Limits.STEP + {i}", "tick({i})",
        "new Object() { int of() { return {i}; } }.of()", "outer.new Inner({i}).sum()", "name({o}).length()", "((Square) {o}).area()", "+(Integer) {o}",
        "+by", "+sh", "chooser({i}).getAsInt()", "{o}.hashCode() & 0", "({s} + {i}).hashCode()", "wide({i}, {l}, {i})", "composed({i})",
    ],
    "long": [
        "{l} + {l}", "{l} - {l}", "{l} * {l}", "{l} / {l}", "{l} % {l}", "{l} & {l}", "{l} ^ {l}", "{l} << {i}", "{l} >> {i}", "{l} >>> {i}", "-{l}", "~{l}",
        "(long) {i}", "{b} ? {l} : {i}", "longs[{i} & 1]", "longs[{i} & 1]--", "longs[{i} & 1] *= {l}", "(long) wide({i}, {l}, {i})",
    ],
    "boolean": [
        "{i} < {i}", "{i} == {i}", "{l} >= {l}", "{l} != {l}", "{b} && {b}", "{b} || {b}", "!{b}", "{b} ^ {b}", "{o} instanceof Square",
        "{o} instanceof Integer",
        "{s}.equals({s})", "{o} == {o}", "{c} > {c}", "{o}.equals({o})", "Kind.of({i}) == Kind.SECOND", "new Box<String>({s}).equals(new Box<String>({s}))",
    ],
    "char": ["(char) ({i} & 127 | 32)", "{s}.charAt({i})", "{s}.charAt({i} & 1)", "ch", "{b} ? {c} : 'q'"],
    "Object": ["shape({i})", "Integer.valueOf({i} & 63)", "{s}", "Kind.of({i})", "new Box<Object>({i} & 7)", "null", "outer", "Character.valueOf({c})"],
    "String": ["{s} + {i}", "{s} + {c} + {l}", "\"\" + {b} + {c}", "{s} + null + {s}", "String.valueOf({c})", "name({o})", "Kind.of({i}).name()",
               "Kind.of({i}) + \"!\"", "{s} + new Box<Integer>({i})", "{b} ? {s} : {s}", "joined({s}, {s}, {s})", "word({i})",
               "new Own({s}, {i}).getMessage()"],
}
STATEMENTS = [
    "i{n} += {i};", "i{n} -= {l};", "i{n} *= {i};", "i{n} /= {i};", "i{n} %= {i};", "i{n} <<= {i};", "i{n} >>>= {i};", "i{n} ^= {i};", "l{n} += {i};",
    "l{n} %= {l};", "l{n} >>= {i};", "by += {i};", "sh *= {i};", "ch++;", "ch += {i};", "by >>>= 1;", "s{n} += {i};", "s{n} += {c};", "s{n} = {s};",
    "l{n} = {l};",
    "i{n} = {i};", "numbers = {b} ? numbers.clone() : new int[] {{i}, {i}, {i}, {i}};", "table[{i} & 3] = new int[] {{i}, {i}};", "table[{i} & 1][{i}] = {i};",
    "outer: for (int a = 0; a < 4; a++) { for (int b = 0; b < 4; b++) { if (a * b > ({i} & 7)) { continue outer; } if (a + b == ({i} & 7)) { break outer; } "
    "i{n} += a - b; } }",
    "do { i{n} >>>= 1; l{n}++; } while (i{n} > 5 && {b});", "int turns = 0; while (turns++ < ({i} & 7)) { if ({b}) { continue; } i{n} += turns; }",
    "try { i{n} = {i} / {i}; } finally { l{n}++; }",
    "try { i{n} = numbers[{i}]; } catch (ArrayIndexOutOfBoundsException raised) { i{n} = -1; } finally { tick(2); }",
    "try { throw new Own(\"at \" + {i}, {i}); } catch (Own own) { s{n} = own.getMessage(); i{n} = own.code; }",
    "try (Closing first = new Closing({i}); Closing second = new Closing({i})) { i{n} = first.turned() + second.turned(); }",
    "switch (Kind.of({i})) { case FIRST: i{n}++; break; case SECOND: i{n} += 2; default: i{n} ^= 9; }",
    "switch ({i} & 3) { case 0: case 2: i{n} = {i}; break; case 1: l{n} = {l}; break; default: return; }",
    "switch ({i}) { case 1000: i{n}--; break; case -7: case 0: i{n} = 5; break; case 2147483647: s{n} = \"most\"; break; default: i{n} >>= 1; }",
    "switch (word({i})) { case \"one\": i{n} = 1; break; case \"Aa\": case \"BB\": i{n} = 2; break; default: l{n} -= 3; }",
    "shapes[{i} & 3] = shape({i});", "for (Shape each : shapes) { if (each != null) { i{n} += each.area(); } }", "shapes = new Square[] {new Square({i})};",
    "for (int each : new Range({i} & 7)) { l{n} += each; }", "for (int[] row : table) { for (int each : row) { i{n} ^= each; } }",
    "final int kept = {i}; IntSupplier late = () -> kept + i{n}; i{n} = late.getAsInt();", "Supplier<String> text = () -> s{n} + {i}; s{n} = text.get();",
    "synchronized (LOCK) { i{n}++; }", "Runnable twice = () -> { i{n} += {i}; tick(1); }; twice.run(); twice.run();",
    "Object any = {o}; if (any instanceof Shape) { i{n} = ((Shape) any).area(); } else if (any != null) { s{n} = name(any); }",
    "char[] letters = {'x', {c}, (char) ({i} & 63 | 64)}; letters[{i} & 1]++; s{n} = new String(letters);",
    "byte[] small = {(byte) {i}, by}; small[{i} & 1] += {i}; i{n} = small[0] * small[1];",
    "boolean[] flags = new boolean[2]; flags[{i} & 1] |= {b}; i{n} = flags[0] ? 1 : 2;",
    "int[][][] deep = new int[2][3][({i} & 1) + 1]; deep[1][{i} & 1][0] = {i}; i{n} = deep[1][1][0] + deep[0].length;",
    "short[] shorts = new short[({i} & 3)]; shorts[{i} & 1] = (short) {i}; i{n} = shorts[0];",
    "Object[] all = {b} ? new Object[2] : new Integer[2]; all[0] = {s}; tick(3);",
    "StringBuilder text = new StringBuilder(); for (int k = 0; k < ({i} & 7); k++) { text.append(k).append({c}); } s{n} = text.toString();",
    "class Local { final int own = {i}; int of(int more) { return own - more * i{n}; } } i{n} = new Local().of({i});",
    "outer.count += {i}; i{n} = outer.count;",
    "for (Kind each : Kind.values()) { i{n} = each.change(i{n}); }", "i{n} = i{n}++ + ++i{n} - (i{n} -= {i});", "Integer boxed = {i}; boxed++; i{n} = boxed;",
    "Long boxed = {l}; boxed += {i}; l{n} = boxed;",
]
IMPORTS = ("java.util.Iterator", "java.util.NoSuchElementException", "java.util.function.Function", "java.util.function.IntSupplier",
           "java.util.function.IntUnaryOperator", "java.util.function.Supplier")
HEAD = "".join(f"import {name};\n" for name in IMPORTS) + """
/** Steps that tests/adapt/random chose. */
public class NAME {
    interface Limits {
        int STEP = 11;
        int[] EDGES = {1, -1, 0};
    }

    interface Shape {
        int area();

        default int twice() {
            return area() * 2 + corners();
        }

        default int corners() {
            return 0;
        }

        static Shape unit() {
            return new Square(1);
        }
    }

    abstract static class Base implements Shape, Limits {
        protected final int side;
        private static int made;

        Base(int side) {
            this.side = side;
            made++;
            grow(made & 1);
        }

        protected void grow(int by) {
            i0 += by + EDGES[by];
        }

        @Override
        public String toString() {
            return getClass() == Square.class ? "square " + side : "shape " + side;
        }
    }

    static class Square extends Base {
        int grown = 3;

        {
            grown += 2;
        }

        Square(int side) {
            super(side);
        }

        @Override
        protected void grow(int by) {
            super.grow(by);
            grown += by;
        }

        @Override
        public int area() {
            return side * side + grown;
        }

        @Override
        public int corners() {
            return 4;
        }

        @Override
        public boolean equals(Object other) {
            return other instanceof Square && ((Square) other).side == side;
        }

        @Override
        public int hashCode() {
            return side;
        }
    }

    static final class Tall extends Square {
        private final long height;

        Tall(int side, long height) {
            super(side + 1);
            this.height = height;
        }

        @Override
        public int area() {
            return (int) (super.area() * height);
        }
    }

    enum Kind {
        FIRST {
            @Override
            int change(int to) {
                return to + 1;
            }
        },
        SECOND, THIRD(5);

        private final int more;

        Kind() {
            this(2);
        }

        Kind(int more) {
            this.more = more;
        }

        int change(int to) {
            return to * more;
        }

        static Kind of(int number) {
            return values()[(number & 3) % 3];
        }
    }

    static final class Box<T> {
        private final T held;

        Box(T held) {
            this.held = held;
        }

        T get() {
            return held;
        }

        @Override
        public boolean equals(Object other) {
            return other instanceof Box && held.equals(((Box<?>) other).held);
        }

        @Override
        public int hashCode() {
            return held.hashCode();
        }

        @Override
        public String toString() {
            return "<" + held + ">";
        }
    }

    static final class Cell {
        private int value;

        Cell(int value) {
            this.value = value;
        }

        int add(int more) {
            return value += more;
        }
    }

    static final class Own extends Exception {
        final int code;

        Own(String message, int code) {
            super(message);
            this.code = code;
        }
    }

    static final class Closing implements AutoCloseable {
        private final int value;

        Closing(int value) {
            this.value = value;
        }

        int turned() {
            return 100 / value;
        }

        @Override
        public void close() {
            System.out.print("closed" + value + " ");
        }
    }

    static final class Range implements Iterable<Integer> {
        private final int end;

        Range(int end) {
            this.end = end;
        }

        @Override
        public Iterator<Integer> iterator() {
            return new Iterator<Integer>() {
                private int next;

                @Override
                public boolean hasNext() {
                    return next < end;
                }

                @Override
                public Integer next() {
                    if (next >= end) {
                        throw new NoSuchElementException();
                    }
                    return next++;
                }
            };
        }
    }

    static final class Rows {
        static int third(int of) {
            return of / 3;
        }
    }

    static final Object LOCK = new Object();
    static int i0 = 3, i1 = -7, i2 = 100;
    static long l0 = 5, l1 = -1L << 40, l2 = 123456789012L;
    static String s0 = "ab", s1 = "", s2 = "FIRST";
    static byte by = 100;
    static short sh = -300;
    static char ch = 'k';
    static int[] numbers = {4, -2, 7, 0};
    static int[][] table = new int[4][2];
    static long[] longs = {1L << 40, -3};
    static Shape[] shapes = new Shape[4];
    static NAME outer = new NAME();
    int count = 9;

    class Inner {
        final int own;

        Inner(int own) {
            this.own = own;
        }

        int sum() {
            return own + count + NAME.this.count++;
        }
    }

    static Shape shape(final int number) {
        switch (number & 3) {
            case 0:
                return new Square(number);
            case 1:
                return new Tall(number, l0);
            case 2:
                return () -> number ^ 21;
            default:
                return new Shape() {
                    @Override
                    public int area() {
                        return corners() - number;
                    }

                    @Override
                    public int corners() {
                        return 3;
                    }
                };
        }
    }

    static int sum(int... all) {
        int sum = all.length;
        for (int each : all) {
            sum += each;
        }
        return sum;
    }

    static int apply(IntUnaryOperator change, int to) {
        return change.applyAsInt(to);
    }

    static int composed(int to) {
        Function<Integer, Function<Integer, Integer>> add = one -> two -> one + two;
        return add.apply(to).apply(4);
    }

    static IntSupplier chooser(int number) {
        return (number & 1) == 0 ? () -> number : new IntSupplier() {
            private int calls;

            @Override
            public int getAsInt() {
                return ++calls + number;
            }
        };
    }

    static int depth(int left, int value) {
        return left <= 0 ? value : depth(left - 1, value * 3) - depth(left - 2, value + 1);
    }

    static int wide(int one, long two, int three) {
        return (int) (one - (two >> 3) + three);
    }

    static int tick(int by) {
        i1 += by;
        return i1 - 1;
    }

    static int guarded(int value, int by) {
        try {
            return value / by;
        } catch (ArithmeticException raised) {
            return -5;
        } finally {
            tick(1);
        }
    }

    static String name(Object of) {
        return of instanceof Kind ? ((Kind) of).name() : of instanceof Integer ? "int" + of : of instanceof String ? (String) of
            : of == null ? "none" : "other";
    }

    static String word(int number) {
        return (number & 3) == 0 ? "one" : (number & 3) == 1 ? "Aa" : (number & 3) == 2 ? "BB" : s1;
    }

    static String joined(String... all) {
        String whole = "";
        for (String each : all) {
            whole += "," + each;
        }
        return whole;
    }

    static String kind(RuntimeException raised) {
        return raised instanceof IndexOutOfBoundsException ? "index" : raised instanceof ArithmeticException ? "arithmetic"
            : raised instanceof ClassCastException ? "cast" : raised instanceof IllegalArgumentException ? "argument"
            : raised instanceof ArrayStoreException ? "store"
            : raised instanceof NullPointerException ? "null" : raised instanceof NegativeArraySizeException ? "negative" : "other";
    }

    static void tell() {
        s0 = s0.substring(0, Math.min(30, s0.length()));
        s1 = s1.substring(0, Math.min(30, s1.length()));
        s2 = s2.substring(0, Math.min(30, s2.length()));
        System.out.println(" " + i0 + " " + i1 + " " + i2 + " " + l0 + " " + l1 + " " + l2 + " " + s0 + "/" + s1 + "/" + s2
            + " " + by + " " + sh + " " + (int) ch + " "
            + sum(numbers) + " " + longs[0] + " " + longs[1] + " " + outer.count);
    }
"""
# Literals by type; statics stand beside those of int, long and String.
LITERALS = {"int": ["0", "1", "-2", "9", "1000", "2147483647", "-2147483648"], "long": ["7L", "1L << 33", "-3L", "-9223372036854775808L"],
            "String": ['"ab"', '"12"', '"caf\\u00e9"', '""', '"Aa"'], "boolean": ["true", "false"], "char": ["'a'", "'7'", "'\\u00e9'"], "Object": ["LOCK"]}
# Statements that `tools/adapt` refuses, each by what it lacks.
REFUSED = [
    "double half = {i} / 2.0; i{n} = (int) half;", "float part = {i}; i{n} += part;", "Thread.yield();", "System.err.println({i});",
    "l{n} = System.currentTimeMillis();", "i{n} = (int) java.util.Arrays.stream(numbers).count();", "new java.util.TreeMap<Integer, Integer>().put({i}, {i});",
    "LOCK.notify();", "i{n} = LOCK.getClass().getMethods().length;", "s{n} = java.util.regex.Pattern.quote({s});",
    "new java.util.PriorityQueue<Integer>().add({i});", "System.exit({i});", "Runtime.getRuntime().gc();", "s{n} = String.valueOf({i} * 1.5f);",
    "i{n} = java.util.Calendar.getInstance().hashCode();", "new Thread(() -> tick(1)).start();",
]
