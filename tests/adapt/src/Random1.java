import java.math.BigInteger;
import java.nio.charset.StandardCharsets;
import java.util.ArrayDeque;
import java.util.ArrayList;
import java.util.Arrays;
import java.util.Collection;
import java.util.Collections;
import java.util.HashMap;
import java.util.List;
import java.util.Map;
import java.util.NoSuchElementException;
import java.util.concurrent.atomic.AtomicInteger;
import java.util.function.IntUnaryOperator;

/** Steps that tests/adapt/random chose. */
public class Random1 {
    enum Kind { FIRST, SECOND }

    static final class TreeOf {
        private final String[] sorted;

        TreeOf(Collection<String> all) {
            sorted = new String[all.size()];
            int count = 0;
            for (String each : all) {
                sorted[count++] = each;
            }
            Arrays.sort(sorted);
        }

        List<String> all() {
            return Arrays.asList(sorted);
        }
    }

    static int i0 = 3, i1 = -7, i2 = 100;
    static long l0 = 5, l1 = -1L << 40, l2 = 123456789012L;
    static String s0 = "ab", s1 = "", s2 = "a1,b22";
    static List<Integer> list = new ArrayList<>(Arrays.asList(4, -2, 7, 0));
    static Map<String, Integer> map = new HashMap<>();
    static ArrayDeque<Integer> deque = new ArrayDeque<>();
    static BigInteger big = new BigInteger("123456789012345678901234567890");
    static AtomicInteger atom = new AtomicInteger(1);

    static int apply(int to, IntUnaryOperator change) {
        return change.applyAsInt(to);
    }

    static String kind(RuntimeException raised) {
        return raised instanceof IndexOutOfBoundsException ? "index" : raised instanceof ArithmeticException ? "arithmetic"
            : raised instanceof NumberFormatException ? "number" : raised instanceof NoSuchElementException ? "none"
            : raised instanceof UnsupportedOperationException ? "unsupported" : raised instanceof NullPointerException ? "null" : "other";
    }

    static void tell() {
        System.out.println(" " + i0 + " " + i1 + " " + i2 + " " + l0 + " " + l1 + " " + l2 + " " + s0 + "/" + s1 + "/" + s2 + " " + list + deque + map.size() + " " + big
            + " " + atom);
    }

    static void step0() {
        try {
            list.remove((Long.compare(((long) (0)), (l1 * l2))) & 3);
        } catch (RuntimeException raised) {
            System.out.print(kind(raised));
        }
        tell();
    }

    static void step1() {
        try {
            list.add((i1 + (atom.getAndAdd((0)))));
        } catch (RuntimeException raised) {
            System.out.print(kind(raised));
        }
        tell();
    }

    static void step2() {
        try {
            map.put(s1, (big.signum()));
        } catch (RuntimeException raised) {
            System.out.print(kind(raised));
        }
        tell();
    }

    static void step3() {
        try {
            Collections.reverse(list);
        } catch (RuntimeException raised) {
            System.out.print(kind(raised));
        }
        tell();
    }

    static void step4() {
        try {
            for (String each : new TreeOf(map.keySet()).all()) { System.out.print(each + ";"); }
        } catch (RuntimeException raised) {
            System.out.print(kind(raised));
        }
        tell();
    }

    static void step5() {
        try {
            list.add((list.hashCode()));
        } catch (RuntimeException raised) {
            System.out.print(kind(raised));
        }
        tell();
    }

    static void step6() {
        try {
            switch ((big.toString(16))) { case "ab": i2++; break; case "": i2--; break; default: i2 ^= 5; }
        } catch (RuntimeException raised) {
            System.out.print(kind(raised));
        }
        tell();
    }

    static void step7() {
        try {
            Collections.unmodifiableList(list).set(0, (((map.getOrDefault(s1, i2)) ^ (list.hashCode()))));
        } catch (RuntimeException raised) {
            System.out.print(kind(raised));
        }
        tell();
    }

    static void step8() {
        try {
            if ((list.size()) > (2147483647)) { s1 = s2; } else { i1 = (atom.getAndAdd(i2)); }
        } catch (RuntimeException raised) {
            System.out.print(kind(raised));
        }
        tell();
    }

    static void step9() {
        try {
            big = big.mod(BigInteger.valueOf(((l1 << ((1000) & 31)) << ((s1.indexOf(s1)) & 31))));
        } catch (RuntimeException raised) {
            System.out.print(kind(raised));
        }
        tell();
    }

    static void step10() {
        try {
            Collections.sort(list);
        } catch (RuntimeException raised) {
            System.out.print(kind(raised));
        }
        tell();
    }

    static void step11() {
        try {
            int[][] rows = new int[2][3]; rows[(deque.size()) & 1][(Long.compare((3L), (7L))) & 1] = 4; i0 = rows[1][1];
        } catch (RuntimeException raised) {
            System.out.print(kind(raised));
        }
        tell();
    }

    static void step12() {
        try {
            if ((s1.length()) > (2)) { s0 = ((("12").replaceAll("[0-9]+", "#")) + i2); } else { i0 = ((String.join(",", ("ab"), (""))).compareTo(("12"))); }
        } catch (RuntimeException raised) {
            System.out.print(kind(raised));
        }
        tell();
    }

    static void step13() {
        try {
            big = big.mod(BigInteger.valueOf((Math.floorDiv((l1 << ((2147483647) & 31)), ((long) (2))))));
        } catch (RuntimeException raised) {
            System.out.print(kind(raised));
        }
        tell();
    }

    static void step14() {
        try {
            i1 = (s0.split("[a,]").length);
        } catch (RuntimeException raised) {
            System.out.print(kind(raised));
        }
        tell();
    }

    static void step15() {
        try {
            list.add((((list.hashCode()) ^ (((9) ^ i1)))) & 3, (2));
        } catch (RuntimeException raised) {
            System.out.print(kind(raised));
        }
        tell();
    }

    static void step16() {
        try {
            map.merge(("caf\u00e9"), (Integer.bitCount((Math.floorMod(i2, i0)))), (one, two) -> one + two);
        } catch (RuntimeException raised) {
            System.out.print(kind(raised));
        }
        tell();
    }

    static void step17() {
        try {
            deque.addFirst((s0.compareTo((big.toString(16)))));
        } catch (RuntimeException raised) {
            System.out.print(kind(raised));
        }
        tell();
    }

    static void step18() {
        try {
            i0 = deque.removeFirst();
        } catch (RuntimeException raised) {
            System.out.print(kind(raised));
        }
        tell();
    }

    static void step19() {
        try {
            Collections.unmodifiableList(list).set(0, i0);
        } catch (RuntimeException raised) {
            System.out.print(kind(raised));
        }
        tell();
    }

    static void step20() {
        try {
            s1 = (String.format("%5d|%-4s|%x", (map.getOrDefault(s2, i1)), s0, (0)));
        } catch (RuntimeException raised) {
            System.out.print(kind(raised));
        }
        tell();
    }

    static void step21() {
        try {
            i2 = deque.removeFirst();
        } catch (RuntimeException raised) {
            System.out.print(kind(raised));
        }
        tell();
    }

    static void step22() {
        try {
            Collections.unmodifiableList(list).set(0, i1);
        } catch (RuntimeException raised) {
            System.out.print(kind(raised));
        }
        tell();
    }

    static void step23() {
        try {
            Collections.reverse(list);
        } catch (RuntimeException raised) {
            System.out.print(kind(raised));
        }
        tell();
    }

    public static void main(String[] arguments) {
        step0();
        step1();
        step2();
        step3();
        step4();
        step5();
        step6();
        step7();
        step8();
        step9();
        step10();
        step11();
        step12();
        step13();
        step14();
        step15();
        step16();
        step17();
        step18();
        step19();
        step20();
        step21();
        step22();
        step23();
    }
}
