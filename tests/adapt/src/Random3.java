import java.math.BigInteger;
import java.nio.charset.StandardCharsets;
import java.util.ArrayDeque;
import java.util.ArrayList;
import java.util.Arrays;
import java.util.Collection;
import java.util.Collections;
import java.util.HashMap;
import java.util.List;
import java.util.Map;
import java.util.NoSuchElementException;
import java.util.concurrent.atomic.AtomicInteger;
import java.util.function.IntUnaryOperator;

/** Steps that tests/adapt/random chose. */
public class Random3 {
    enum Kind { FIRST, SECOND }

    static final class TreeOf {
        private final String[] sorted;

        TreeOf(Collection<String> all) {
            sorted = new String[all.size()];
            int count = 0;
            for (String each : all) {
                sorted[count++] = each;
            }
            Arrays.sort(sorted);
        }

        List<String> all() {
            return Arrays.asList(sorted);
        }
    }

    static int i0 = 3, i1 = -7, i2 = 100;
    static long l0 = 5, l1 = -1L << 40, l2 = 123456789012L;
    static String s0 = "ab", s1 = "", s2 = "a1,b22";
    static List<Integer> list = new ArrayList<>(Arrays.asList(4, -2, 7, 0));
    static Map<String, Integer> map = new HashMap<>();
    static ArrayDeque<Integer> deque = new ArrayDeque<>();
    static BigInteger big = new BigInteger("123456789012345678901234567890");
    static AtomicInteger atom = new AtomicInteger(1);

    static int apply(int to, IntUnaryOperator change) {
        return change.applyAsInt(to);
    }

    static String kind(RuntimeException raised) {
        return raised instanceof IndexOutOfBoundsException ? "index" : raised instanceof ArithmeticException ? "arithmetic"
            : raised instanceof NumberFormatException ? "number" : raised instanceof NoSuchElementException ? "none"
            : raised instanceof UnsupportedOperationException ? "unsupported" : raised instanceof NullPointerException ? "null" : "other";
    }

    static void tell() {
        System.out.println(" " + i0 + " " + i1 + " " + i2 + " " + l0 + " " + l1 + " " + l2 + " " + s0 + "/" + s1 + "/" + s2 + " " + list + deque + map.size() + " " + big
            + " " + atom);
    }

    static void step0() {
        try {
            map.put((""), (((int) l2) % (map.size())));
        } catch (RuntimeException raised) {
            System.out.print(kind(raised));
        }
        tell();
    }

    static void step1() {
        try {
            Collections.reverse(list);
        } catch (RuntimeException raised) {
            System.out.print(kind(raised));
        }
        tell();
    }

    static void step2() {
        try {
            map.put((("12") + (("").indexOf(("")))), ((Kind.values()[i0 & 1].name()).split("[a,]").length));
        } catch (RuntimeException raised) {
            System.out.print(kind(raised));
        }
        tell();
    }

    static void step3() {
        try {
            for (String each : new TreeOf(map.keySet()).all()) { System.out.print(each + ";"); }
        } catch (RuntimeException raised) {
            System.out.print(kind(raised));
        }
        tell();
    }

    static void step4() {
        try {
            i2 = deque.pop();
        } catch (RuntimeException raised) {
            System.out.print(kind(raised));
        }
        tell();
    }

    static void step5() {
        try {
            Collections.unmodifiableList(list).set(0, (list.size()));
        } catch (RuntimeException raised) {
            System.out.print(kind(raised));
        }
        tell();
    }

    static void step6() {
        try {
            list.removeIf(each -> each < 0);
        } catch (RuntimeException raised) {
            System.out.print(kind(raised));
        }
        tell();
    }

    static void step7() {
        try {
            list.removeIf(each -> each < 0);
        } catch (RuntimeException raised) {
            System.out.print(kind(raised));
        }
        tell();
    }

    static void step8() {
        try {
            s1 = s1.substring(0, Math.min(9, s1.length()));
        } catch (RuntimeException raised) {
            System.out.print(kind(raised));
        }
        tell();
    }

    static void step9() {
        try {
            for (int each : list) { i0 += each; }
        } catch (RuntimeException raised) {
            System.out.print(kind(raised));
        }
        tell();
    }

    static void step10() {
        try {
            for (String each : new TreeOf(map.keySet()).all()) { System.out.print(each + ";"); }
        } catch (RuntimeException raised) {
            System.out.print(kind(raised));
        }
        tell();
    }

    static void step11() {
        try {
            list.forEach(each -> System.out.print(each + " "));
        } catch (RuntimeException raised) {
            System.out.print(kind(raised));
        }
        tell();
    }

    static void step12() {
        try {
            switch (s2) { case "ab": i2++; break; case "": i2--; break; default: i2 ^= 5; }
        } catch (RuntimeException raised) {
            System.out.print(kind(raised));
        }
        tell();
    }

    static void step13() {
        try {
            Collections.unmodifiableList(list).set(0, (("").indexOf((big.toString(16)))));
        } catch (RuntimeException raised) {
            System.out.print(kind(raised));
        }
        tell();
    }

    static void step14() {
        try {
            i1 = i2;
        } catch (RuntimeException raised) {
            System.out.print(kind(raised));
        }
        tell();
    }

    static void step15() {
        try {
            switch ((list.toString())) { case "ab": i1++; break; case "": i1--; break; default: i1 ^= 5; }
        } catch (RuntimeException raised) {
            System.out.print(kind(raised));
        }
        tell();
    }

    static void step16() {
        try {
            big = big.mod(BigInteger.valueOf(l0));
        } catch (RuntimeException raised) {
            System.out.print(kind(raised));
        }
        tell();
    }

    static void step17() {
        try {
            Collections.sort(list);
        } catch (RuntimeException raised) {
            System.out.print(kind(raised));
        }
        tell();
    }

    static void step18() {
        try {
            list.add(((("caf\u00e9").toUpperCase()).compareTo((Kind.values()[i2 & 1].name()))) & 3, (apply((("12").indexOf(("caf\u00e9"))), each -> each * 3 - 1)));
        } catch (RuntimeException raised) {
            System.out.print(kind(raised));
        }
        tell();
    }

    static void step19() {
        try {
            int[][] rows = new int[2][3]; rows[(map.getOrDefault((String.format("%5d|%-4s|%x", (1000), (""), i2)), (list.get((1000) & 7)))) & 1][(1) & 1] = 4; i1 = rows[1][1];
        } catch (RuntimeException raised) {
            System.out.print(kind(raised));
        }
        tell();
    }

    static void step20() {
        try {
            int[][] rows = new int[2][3]; rows[((deque.toString()).getBytes(StandardCharsets.UTF_8).length) & 1][((s1.length()) % (big.bitLength())) & 1] = 4; i2 = rows[1][1];
        } catch (RuntimeException raised) {
            System.out.print(kind(raised));
        }
        tell();
    }

    static void step21() {
        try {
            list.add(i1);
        } catch (RuntimeException raised) {
            System.out.print(kind(raised));
        }
        tell();
    }

    static void step22() {
        try {
            deque.addFirst((((deque.size()) ^ i1)));
        } catch (RuntimeException raised) {
            System.out.print(kind(raised));
        }
        tell();
    }

    static void step23() {
        try {
            deque.addFirst((big.bitLength()));
        } catch (RuntimeException raised) {
            System.out.print(kind(raised));
        }
        tell();
    }

    public static void main(String[] arguments) {
        step0();
        step1();
        step2();
        step3();
        step4();
        step5();
        step6();
        step7();
        step8();
        step9();
        step10();
        step11();
        step12();
        step13();
        step14();
        step15();
        step16();
        step17();
        step18();
        step19();
        step20();
        step21();
        step22();
        step23();
    }
}
