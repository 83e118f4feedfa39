import java.util.function.BiFunction;
import java.util.function.Function;
import java.util.function.IntBinaryOperator;
import java.util.function.IntFunction;
import java.util.function.IntToLongFunction;
import java.util.function.Supplier;
import java.util.function.ToIntFunction;

/** Method references: static, bound, unbound, of constructors, of private and of inherited methods. */
public class References {
    static class Account {
        private int money;

        Account() {
            this(100);
        }

        Account(int money) {
            this.money = money;
        }

        int money() {
            return money;
        }

        static int merged(int one, int two) {
            return one * 1000 + two;
        }

        @Override
        public String toString() {
            return "account " + money;
        }
    }

    static class Special extends Account {
        Special(int money) {
            super(money * 2);
        }

        ToIntFunction<Special> inherited() {
            return Account::money;
        }

        Supplier<Integer> ofSuper() {
            return super::money;
        }

        @Override
        int money() {
            return -super.money();
        }
    }

    private static int squared(int x) {
        return x * x;
    }

    private static int secret(int x, int y) {
        return x - y;
    }

    public static void main(String[] args) {
        Supplier<Account> maker = Account::new;
        IntFunction<Account> ofMoney = Account::new;
        Function<Account, String> text = Account::toString;
        ToIntFunction<Account> money = Account::money;
        IntBinaryOperator merged = Account::merged;
        IntBinaryOperator hidden = References::secret;
        IntToLongFunction wide = References::squared;
        System.out.println(wide.applyAsLong(-70000) + wide.applyAsLong(3));
        Account bound = new Account(7);
        Supplier<String> later = bound::toString;
        bound.money = 8;
        BiFunction<String, Integer, Character> at = String::charAt;
        IntFunction<int[]> arrays = int[]::new;
        System.out.println(maker.get().money() + " " + text.apply(ofMoney.apply(55)) + " " + money.applyAsInt(new Special(4)));
        System.out.println(merged.applyAsInt(12, 34) + " " + hidden.applyAsInt(5, 9) + " " + later.get() + " " + at.apply("word", 2));
        Special special = new Special(21);
        System.out.println(special.inherited().applyAsInt(special) + " " + special.ofSuper().get() + " " + arrays.apply(9).length);
    }
}
