import java.util.Objects;

/** equals and hashCode of receivers whose class declares them, inherits them, or has none. */
public class AnyObjects {
    interface Item {
        boolean equals(Object other);

        int hashCode();

        int code();
    }

    static class Coded implements Item {
        final int code;

        Coded(int code) {
            this.code = code;
        }

        @Override
        public int code() {
            return code;
        }

        @Override
        public boolean equals(Object other) {
            return other instanceof Item && ((Item) other).code() == code;
        }

        @Override
        public int hashCode() {
            return code * 7;
        }
    }

    static class Below extends Coded {
        Below(int code) {
            super(code);
        }

        @Override
        public int hashCode() {
            return 1 + super.hashCode();
        }
    }

    static class Plain {
        @Override
        public boolean equals(Object other) {
            return super.equals(other);
        }
    }

    static final class None {
    }

    static int find(Object[] in, Object wanted) {
        for (int k = 0; k < in.length; k++) {
            if (wanted == null ? in[k] == null : wanted.equals(in[k])) {
                return k;
            }
        }
        return -1;
    }

    public static void main(String[] args) {
        Plain plain = new Plain();
        None none = new None();
        int[] array = {1};
        Object[] all = {"zero", new Coded(1), new Below(2), plain, none, array, null, new Coded(1)};
        System.out.print(find(all, "ze" + "ro".substring(0)) + find(all, new Below(1)) * 10 + find(all, new Coded(2)) * 100 + " ");
        System.out.println(find(all, plain) + " " + find(all, none) + " " + find(all, array) + find(all, null) + find(all, new None()));
        Item item = new Below(4);
        Item other = new Coded(4);
        System.out.println(item.equals(other) + " " + other.equals(item) + item.equals(null) + item.hashCode() + " " + other.hashCode());
        Coded coded = new Below(5);
        System.out.println(coded.hashCode() + " " + coded.equals(none) + none.equals(none) + (none.hashCode() == none.hashCode()));
        System.out.println(Objects.equals(item, other) + " " + Objects.equals(null, none) + Objects.hashCode(null) + array.equals(array));
        try {
            Object nothing = null;
            nothing.equals(none);
        } catch (NullPointerException e) {
            System.out.println("null");
        }
    }
}
