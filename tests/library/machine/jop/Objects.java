package jop;

/** What a virtual machine does for the library's class of this name. */
public final class Objects {
    public static boolean equals(Object first, Object other) {
        return first.equals(other);
    }

    public static int hashCode(Object object) {
        return object.hashCode();
    }

    public static String toText(Object object) {
        return object.toString();
    }
}
