package java.util;

import jop.Text;

/** Methods on objects that may be null. */
public final class Objects {
    private Objects() {
    }

    public static <T> T requireNonNull(T object) {
        if (object == null) {
            throw new NullPointerException();
        }
        return object;
    }

    public static <T> T requireNonNull(T object, String message) {
        if (object == null) {
            throw new NullPointerException(message);
        }
        return object;
    }

    public static boolean isNull(Object object) {
        return object == null;
    }

    public static boolean nonNull(Object object) {
        return object != null;
    }

    public static boolean equals(Object first, Object second) {
        return first == second || first != null && jop.Objects.equals(first, second);
    }

    public static int hashCode(Object object) {
        return object == null ? 0 : jop.Objects.hashCode(object);
    }

    public static int hash(Object... each) {
        return Arrays.hashCode(each);
    }

    public static Text toString(Object object) {
        return Text.valueOf(object);
    }
}
