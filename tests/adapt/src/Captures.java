import java.util.function.IntUnaryOperator;
import java.util.function.LongUnaryOperator;

/** Lambdas with captured values, of locals and of this. */
public class Captures {
    interface Rule {
        boolean holds(int x);

        default Rule and(Rule other) {
            return x -> holds(x) && other.holds(x);
        }

        default Rule not() {
            return x -> !holds(x);
        }

        static Rule atLeast(int least) {
            return x -> x >= least;
        }
    }

    private final int factor;
    private int count;

    Captures(int factor) {
        this.factor = factor;
    }

    IntUnaryOperator scaled(int offset) {
        return x -> {
            count++;
            return x * factor + offset;
        };
    }

    private int own(int x) {
        return x - factor;
    }

    IntUnaryOperator shifted() {
        return this::own;
    }

    static LongUnaryOperator mixed(byte b, long l, char c, boolean z, String s) {
        return x -> x + b + l + c + (z ? 1 : 0) + s.length();
    }

    public static void main(String[] args) {
        Captures captures = new Captures(3);
        IntUnaryOperator one = captures.scaled(1);
        IntUnaryOperator two = captures.scaled(-100);
        System.out.println(one.applyAsInt(5) + " " + two.applyAsInt(one.applyAsInt(7)) + " " + captures.count);
        System.out.println(captures.shifted().applyAsInt(50) + " " + mixed((byte) -3, 1L << 35, 'a', true, "four").applyAsLong(1000));
        Rule rule = Rule.atLeast(3).and(Rule.atLeast(6).not());
        for (int x = 0; x < 9; x++) {
            System.out.print(rule.holds(x) ? 'y' : 'n');
        }
        System.out.println();
    }
}
