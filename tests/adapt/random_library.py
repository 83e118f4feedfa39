"""Random steps over the library: lists, maps, texts, big numbers, for tests/adapt/random."""

# Expressions by their type: `i` and the like stand for expressions of that type.
EXPRESSIONS = {
    "int": [
        "{i} + {i}", "{i} - {i}", "{i} * {i}", "{i} / {i}", "{i} % {i}", "{i} >>> ({i} & 7)", "({i} ^ {i})", "{s}.length()", "{s}.indexOf({s})",
        "{s}.compareTo({s})", "{s}.hashCode()", "list.size()", "list.get({i} & 7)", "list.indexOf({i})", "deque.size()", "map.size()",
        "Math.max({i}, {i})", "Math.floorMod({i}, {i})", "map.getOrDefault({s}, {i})", "(int) {l}", "big.bitLength()", "big.signum()",
        "Integer.parseInt({s})", "atom.getAndAdd({i})", "{s}.getBytes(StandardCharsets.UTF_8).length", "Long.compare({l}, {l})",
        "Integer.bitCount({i})", "{s}.split(\"[a,]\").length", "list.hashCode()", "Kind.values()[{i} & 1].ordinal()",
        "apply({i}, each{u} -> each{u} * 3 - 1)"],
    "long": [
        "{l} + {l}", "{l} * {l}", "{l} / {l}", "{l} % {l}", "(long) {i}", "{l} << ({i} & 31)", "Math.floorDiv({l}, {l})", "big.longValue()",
        "Long.rotateLeft({l}, {i})"],
    "String": [
        "{s} + {i}", "{s}.substring({i} & 3)", "{s}.trim()", "{s}.replace('a', 'b')", "{s}.toUpperCase()", "String.valueOf({l})", "{s}.concat({s})",
        "Integer.toString({i}, 16)", "{s}.replace(\"ab\", {s})", "new StringBuilder({s}).reverse().toString()", "String.join(\",\", {s}, {s})",
        "String.format(\"%5d|%-4s|%x\", {i}, {s}, {i})", "Kind.values()[{i} & 1].name()", "big.toString(16)",
        "new StringBuilder({s}).insert({i} & 3, {i}).toString()", "new String({s}.getBytes(StandardCharsets.UTF_8), StandardCharsets.UTF_8)",
        "{s}.replaceAll(\"[0-9]+\", \"#\")", "list.toString()", "deque.toString()"],
}
STATEMENTS = [
    "i{n} = {i};", "l{n} = {l};", "s{n} = {s};", "list.add({i});", "list.remove({i} & 3);", "list.set({i} & 3, {i});", "list.add({i} & 3, {i});",
    "map.put({s}, {i});", "map.merge({s}, {i}, (one, two) -> one + two);", "map.remove({s});", "deque.addFirst({i});", "deque.addLast({i});",
    "i{n} = deque.removeFirst();", "i{n} = deque.pop();", "big = big.add(BigInteger.valueOf({l}));",
    "big = big.multiply(BigInteger.valueOf({i})).shiftRight({i} & 63);", "big = big.mod(BigInteger.valueOf({l}));", "Collections.sort(list);",
    "list.removeIf(each -> each < 0);", "list.forEach(each -> System.out.print(each + \" \"));", "Collections.reverse(list);",
    "for (int each : list) { i{n} += each; }", "switch ({s}) { case \"ab\": i{n}++; break; case \"\": i{n}--; break; default: i{n} ^= 5; }",
    "for (int k = 0; k < ({i} & 7); k++) { l{n} += k * {l}; }", "if ({i} > {i}) { s{n} = {s}; } else { i{n} = {i}; }",
    "int[][] rows = new int[2][3]; rows[{i} & 1][{i} & 1] = 4; i{n} = rows[1][1];", "Collections.unmodifiableList(list).set(0, {i});",
    "for (String each : new TreeOf(map.keySet()).all()) { System.out.print(each + \";\"); }",
    "s{n} = s{n}.substring(0, Math.min(9, s{n}.length()));",
]
HEAD = """import java.math.BigInteger;
import java.nio.charset.StandardCharsets;
import java.util.ArrayDeque;
import java.util.ArrayList;
import java.util.Arrays;
import java.util.Collection;
import java.util.Collections;
import java.util.HashMap;
import java.util.List;
import java.util.Map;
import java.util.NoSuchElementException;
import java.util.concurrent.atomic.AtomicInteger;
import java.util.function.IntUnaryOperator;

/** Steps that tests/adapt/random chose. */
public class NAME {
    enum Kind { FIRST, SECOND }

    static final class TreeOf {
        private final String[] sorted;

        TreeOf(Collection<String> all) {
            sorted = new String[all.size()];
            int count = 0;
            for (String each : all) {
                sorted[count++] = each;
            }
            Arrays.sort(sorted);
        }

        List<String> all() {
            return Arrays.asList(sorted);
        }
    }

    static int i0 = 3, i1 = -7, i2 = 100;
    static long l0 = 5, l1 = -1L << 40, l2 = 123456789012L;
    static String s0 = "ab", s1 = "", s2 = "a1,b22";
    static List<Integer> list = new ArrayList<>(Arrays.asList(4, -2, 7, 0));
    static Map<String, Integer> map = new HashMap<>();
    static ArrayDeque<Integer> deque = new ArrayDeque<>();
    static BigInteger big = new BigInteger("123456789012345678901234567890");
    static AtomicInteger atom = new AtomicInteger(1);

    static int apply(int to, IntUnaryOperator change) {
        return change.applyAsInt(to);
    }

    static String kind(RuntimeException raised) {
        return raised instanceof IndexOutOfBoundsException ? "index" : raised instanceof ArithmeticException ? "arithmetic"
            : raised instanceof NumberFormatException ? "number" : raised instanceof NoSuchElementException ? "none"
            : raised instanceof UnsupportedOperationException ? "unsupported" : raised instanceof NullPointerException ? "null" : "other";
    }

    static void tell() {
        System.out.println(" " + i0 + " " + i1 + " " + i2 + " " + l0 + " " + l1 + " " + l2 + " " + s0 + "/" + s1 + "/" + s2
            + " " + list + deque + map.size() + " " + big
            + " " + atom);
    }
"""
# Literals by type; statics stand beside them.
LITERALS = {"int": ["0", "1", "2", "9", "1000", "2147483647"], "long": ["7L", "1L << 33", "3L"], "String": ['"ab"', '"12"', '"caf\\u00e9"', '""']}
