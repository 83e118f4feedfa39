import java.util.Comparator;
import java.util.function.BinaryOperator;
import java.util.function.Function;
import java.util.function.IntBinaryOperator;
import java.util.function.IntPredicate;
import java.util.function.IntUnaryOperator;
import java.util.function.Supplier;

/** Lambdas without captured values, of interfaces of the library and of one's own. */
public class Lambdas {
    interface Step {
        int step(int state, int input);

        default int twice(int state, int input) {
            return step(step(state, input), input);
        }
    }

    interface Maker<T> {
        T make();
    }

    private static final Step[] STEPS = {(state, input) -> state + input, (state, input) -> state ^ input << 1, (state, input) -> state * 31 + input};
    private static final IntBinaryOperator GREATEST = (one, two) -> one > two ? one : two;
    static int calls;

    static int fold(int[] numbers, int first, IntBinaryOperator by) {
        int result = first;
        for (int number : numbers) {
            result = by.applyAsInt(result, number);
        }
        return result;
    }

    static int count(int[] numbers, IntPredicate test) {
        int count = 0;
        for (int number : numbers) {
            count += test.test(number) ? 1 : 0;
        }
        return count;
    }

    static void sort(String[] words, Comparator<String> by) {
        for (int k = 1; k < words.length; k++) {
            String word = words[k];
            int place = k;
            for (; place > 0 && by.compare(words[place - 1], word) > 0; place--) {
                words[place] = words[place - 1];
            }
            words[place] = word;
        }
    }

    public static void main(String[] args) {
        int[] numbers = {3, 1, 4, 1, 5, 9, 2, 6};
        System.out.println(fold(numbers, 0, (x, y) -> x + y) + " " + fold(numbers, 1, (x, y) -> x * y) + " " + fold(numbers, 0, GREATEST));
        System.out.println(count(numbers, x -> x % 2 == 1) + " " + count(numbers, x -> x > 2));
        for (Step step : STEPS) {
            System.out.print(step.step(5, 7) + "," + step.twice(5, 7) + " ");
        }
        String[] words = {"pear", "fig", "banana", "kiwi"};
        sort(words, (one, two) -> one.length() != two.length() ? one.length() - two.length() : one.compareTo(two));
        for (String word : words) {
            System.out.print(word + " ");
        }
        Supplier<String> supplier = () -> "supplied " + ++calls;
        Function<String, Integer> length = text -> text.length();
        BinaryOperator<String> join = (one, two) -> one + "-" + two;
        Maker<int[]> maker = () -> new int[] {7, 8};
        IntUnaryOperator nested = x -> fold(new int[] {x, x}, 1, (y, z) -> y + z);
        System.out.println(supplier.get() + supplier.get() + length.apply("four") + join.apply("a", "b") + maker.make()[1] + nested.applyAsInt(20));
        Runnable run = () -> calls += 100;
        run.run();
        run.run();
        System.out.println(calls);
    }
}
