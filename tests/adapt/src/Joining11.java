/** String + as compilers for Java 9 and later write it, by invokedynamic. */
public class Joining11 {
    static final String CONSTANT = "constant \1\2 ";
    private final int number;

    Joining11(int number) {
        this.number = number;
    }

    @Override
    public String toString() {
        return "<" + number + ">";
    }

    private static String all(int i, long l, char c, boolean z, byte b, short s, String t, Object o) {
        return i + "i" + l + 'l' + c + z + b + s + t + o;
    }

    private static String two(String one, String two) {
        return one + two;
    }

    interface Named {
        String name();

        default String greeting() {
            return "hello " + name() + "!";
        }
    }

    static final class Ann implements Named {
        @Override
        public String name() {
            return two("An", "n");
        }
    }

    public static void main(String[] args) {
        System.out.println(all(-1, 1L << 40, '$', true, (byte) 200, (short) 70000, "text", new Joining11(5)));
        System.out.println(all(0, 0, '0', false, (byte) 0, (short) 0, null, null));
        System.out.println(CONSTANT + args.length + CONSTANT);
        System.out.println(two(null, "x") + two("", ""));
        System.out.println(new Ann().greeting());
        String text = "a";
        for (int k = 0; k < 5; k++) {
            text += text.length() + "b";
        }
        System.out.println(text);
    }
}
