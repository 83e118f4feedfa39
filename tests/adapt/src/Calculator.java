/** An expression is read and worked out; faults are told by exceptions. */
public class Calculator {
    interface Node {
        long value(long x);
    }

    enum Operator {
        PLUS('+', 1) {
            @Override
            long apply(long one, long two) {
                return one + two;
            }
        },
        MINUS('-', 1) {
            @Override
            long apply(long one, long two) {
                return one - two;
            }
        },
        TIMES('*', 2) {
            @Override
            long apply(long one, long two) {
                return one * two;
            }
        },
        OVER('/', 2) {
            @Override
            long apply(long one, long two) {
                return one / two;
            }
        };

        final char sign;
        final int rank;

        Operator(char sign, int rank) {
            this.sign = sign;
            this.rank = rank;
        }

        abstract long apply(long one, long two);

        static Operator of(char sign) {
            for (Operator each : values()) {
                if (each.sign == sign) {
                    return each;
                }
            }
            return null;
        }
    }

    private final String text;
    private int place;

    Calculator(String text) {
        this.text = text;
    }

    private char next() {
        return place < text.length() ? text.charAt(place) : '\0';
    }

    Node expression(int least) {
        Node left = operand();
        for (Operator found = Operator.of(next()); found != null && found.rank >= least; found = Operator.of(next())) {
            place++;
            Node one = left;
            Node two = expression(found.rank + 1);
            Operator by = found;
            left = x -> by.apply(one.value(x), two.value(x));
        }
        return left;
    }

    private Node operand() {
        char sign = next();
        if (sign == '(') {
            place++;
            Node inner = expression(1);
            if (next() != ')') {
                throw new IllegalArgumentException("no ) at " + place + " of " + text);
            }
            place++;
            return inner;
        }
        if (sign == 'x') {
            place++;
            return x -> x;
        }
        return number();
    }

    private Node number() {
        int from = place;
        long value = 0;
        while (next() >= '0' && next() <= '9') {
            value = value * 10 + (next() - '0');
            place++;
        }
        if (from == place) {
            throw new IllegalArgumentException("no operand at " + place + " of " + text);
        }
        long number = value;
        return x -> number;
    }

    public static void main(String[] args) {
        String[] texts = {"1+2*3", "(1+2)*3", "x*x-1", "100/7/2", "2*(x", "7-", "1000000007*x*x", "5/(x-x)"};
        for (String text : texts) {
            try {
                System.out.println(text + " = " + new Calculator(text).expression(1).value(12345678L));
            } catch (IllegalArgumentException e) {
                System.out.println(e.getMessage());
            } catch (ArithmeticException e) {
                System.out.println(text + " divides by zero");
            }
        }
    }
}
