import java.math.BigInteger;
import java.nio.charset.StandardCharsets;
import java.util.ArrayDeque;
import java.util.ArrayList;
import java.util.Arrays;
import java.util.Collection;
import java.util.Collections;
import java.util.HashMap;
import java.util.List;
import java.util.Map;
import java.util.NoSuchElementException;
import java.util.concurrent.atomic.AtomicInteger;
import java.util.function.IntUnaryOperator;

/** Steps that tests/adapt/random chose. */
public class Random2 {
    enum Kind { FIRST, SECOND }

    static final class TreeOf {
        private final String[] sorted;

        TreeOf(Collection<String> all) {
            sorted = new String[all.size()];
            int count = 0;
            for (String each : all) {
                sorted[count++] = each;
            }
            Arrays.sort(sorted);
        }

        List<String> all() {
            return Arrays.asList(sorted);
        }
    }

    static int i0 = 3, i1 = -7, i2 = 100;
    static long l0 = 5, l1 = -1L << 40, l2 = 123456789012L;
    static String s0 = "ab", s1 = "", s2 = "a1,b22";
    static List<Integer> list = new ArrayList<>(Arrays.asList(4, -2, 7, 0));
    static Map<String, Integer> map = new HashMap<>();
    static ArrayDeque<Integer> deque = new ArrayDeque<>();
    static BigInteger big = new BigInteger("123456789012345678901234567890");
    static AtomicInteger atom = new AtomicInteger(1);

    static int apply(int to, IntUnaryOperator change) {
        return change.applyAsInt(to);
    }

    static String kind(RuntimeException raised) {
        return raised instanceof IndexOutOfBoundsException ? "index" : raised instanceof ArithmeticException ? "arithmetic"
            : raised instanceof NumberFormatException ? "number" : raised instanceof NoSuchElementException ? "none"
            : raised instanceof UnsupportedOperationException ? "unsupported" : raised instanceof NullPointerException ? "null" : "other";
    }

    static void tell() {
        System.out.println(" " + i0 + " " + i1 + " " + i2 + " " + l0 + " " + l1 + " " + l2 + " " + s0 + "/" + s1 + "/" + s2 + " " + list + deque + map.size() + " " + big
            + " " + atom);
    }

    static void step0() {
        try {
            for (String each : new TreeOf(map.keySet()).all()) { System.out.print(each + ";"); }
        } catch (RuntimeException raised) {
            System.out.print(kind(raised));
        }
        tell();
    }

    static void step1() {
        try {
            s2 = s1;
        } catch (RuntimeException raised) {
            System.out.print(kind(raised));
        }
        tell();
    }

    static void step2() {
        try {
            l0 = ((Math.floorDiv((3L), (1L << 33))) / ((7L) << (i2 & 31)));
        } catch (RuntimeException raised) {
            System.out.print(kind(raised));
        }
        tell();
    }

    static void step3() {
        try {
            list.remove((list.size()) & 3);
        } catch (RuntimeException raised) {
            System.out.print(kind(raised));
        }
        tell();
    }

    static void step4() {
        try {
            for (int each : list) { i2 += each; }
        } catch (RuntimeException raised) {
            System.out.print(kind(raised));
        }
        tell();
    }

    static void step5() {
        try {
            list.set((deque.size()) & 3, (atom.getAndAdd((Kind.values()[(2) & 1].ordinal()))));
        } catch (RuntimeException raised) {
            System.out.print(kind(raised));
        }
        tell();
    }

    static void step6() {
        try {
            if ((atom.getAndAdd((Math.max((1), (2147483647))))) > ((String.valueOf((1L << 33))).length())) { s1 = (deque.toString()); } else { i1 = (Integer.parseInt((list.toString()))); }
        } catch (RuntimeException raised) {
            System.out.print(kind(raised));
        }
        tell();
    }

    static void step7() {
        try {
            map.remove((new String((s0.trim()).getBytes(StandardCharsets.UTF_8), StandardCharsets.UTF_8)));
        } catch (RuntimeException raised) {
            System.out.print(kind(raised));
        }
        tell();
    }

    static void step8() {
        try {
            list.removeIf(each -> each < 0);
        } catch (RuntimeException raised) {
            System.out.print(kind(raised));
        }
        tell();
    }

    static void step9() {
        try {
            l1 = l2;
        } catch (RuntimeException raised) {
            System.out.print(kind(raised));
        }
        tell();
    }

    static void step10() {
        try {
            map.put(s0, (apply((list.indexOf((2147483647))), each -> each * 3 - 1)));
        } catch (RuntimeException raised) {
            System.out.print(kind(raised));
        }
        tell();
    }

    static void step11() {
        try {
            l1 = ((l2 / l0) + ((3L) + l1));
        } catch (RuntimeException raised) {
            System.out.print(kind(raised));
        }
        tell();
    }

    static void step12() {
        try {
            if (((int) (big.longValue())) > ((("").hashCode()) * (("caf\u00e9").hashCode()))) { s0 = s2; } else { i0 = (Integer.parseInt((s0.toUpperCase()))); }
        } catch (RuntimeException raised) {
            System.out.print(kind(raised));
        }
        tell();
    }

    static void step13() {
        try {
            map.put(s0, ((1000) * (0)));
        } catch (RuntimeException raised) {
            System.out.print(kind(raised));
        }
        tell();
    }

    static void step14() {
        try {
            i1 = (1);
        } catch (RuntimeException raised) {
            System.out.print(kind(raised));
        }
        tell();
    }

    static void step15() {
        try {
            map.remove((Kind.values()[i1 & 1].name()));
        } catch (RuntimeException raised) {
            System.out.print(kind(raised));
        }
        tell();
    }

    static void step16() {
        try {
            list.removeIf(each -> each < 0);
        } catch (RuntimeException raised) {
            System.out.print(kind(raised));
        }
        tell();
    }

    static void step17() {
        try {
            s1 = s1.substring(0, Math.min(9, s1.length()));
        } catch (RuntimeException raised) {
            System.out.print(kind(raised));
        }
        tell();
    }

    static void step18() {
        try {
            big = big.mod(BigInteger.valueOf(((big.longValue()) * (Long.rotateLeft(l0, (0))))));
        } catch (RuntimeException raised) {
            System.out.print(kind(raised));
        }
        tell();
    }

    static void step19() {
        try {
            list.add((big.signum()) & 3, (Long.compare((Math.floorDiv(l0, (1L << 33))), ((1L << 33) * (3L)))));
        } catch (RuntimeException raised) {
            System.out.print(kind(raised));
        }
        tell();
    }

    static void step20() {
        try {
            s0 = s0.substring(0, Math.min(9, s0.length()));
        } catch (RuntimeException raised) {
            System.out.print(kind(raised));
        }
        tell();
    }

    static void step21() {
        try {
            map.merge((("ab").replace('a', 'b')), (0), (one, two) -> one + two);
        } catch (RuntimeException raised) {
            System.out.print(kind(raised));
        }
        tell();
    }

    static void step22() {
        try {
            deque.addLast(((("").indexOf(s1)) % i2));
        } catch (RuntimeException raised) {
            System.out.print(kind(raised));
        }
        tell();
    }

    static void step23() {
        try {
            for (int k = 0; k < ((i1 / (Kind.values()[(2147483647) & 1].ordinal())) & 7); k++) { l2 += k * ((1L << 33) << ((Math.max((2), (0))) & 31)); }
        } catch (RuntimeException raised) {
            System.out.print(kind(raised));
        }
        tell();
    }

    public static void main(String[] arguments) {
        step0();
        step1();
        step2();
        step3();
        step4();
        step5();
        step6();
        step7();
        step8();
        step9();
        step10();
        step11();
        step12();
        step13();
        step14();
        step15();
        step16();
        step17();
        step18();
        step19();
        step20();
        step21();
        step22();
        step23();
    }
}
