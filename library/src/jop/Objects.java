package jop;

/** The methods of Object that the machine's Object lacks. A String has them all, another object by the interfaces. */
public final class Objects {
    private Objects() {
    }

    /** Whether the first object, which isn't null, says that the other one is equal; without the method, whether they are one object. */
    public static boolean equals(Object first, Object other) {
        if (first instanceof EqualsMethod) {
            return ((EqualsMethod) first).equals(other);
        }
        if (first instanceof String) {
            return Strings.equals((String) first, other);
        }
        if (first instanceof CollectionMethods) {
            return ((CollectionMethods) first).equals(other);
        }
        check(first);
        return first == other;
    }

    /** The object's hash; without the method, that of System.identityHashCode. */
    public static int hashCode(Object object) {
        if (object instanceof HashCodeMethod) {
            return ((HashCodeMethod) object).hashCode();
        }
        if (object instanceof String) {
            return Strings.hashCode((String) object);
        }
        if (object instanceof CollectionMethods) {
            return ((CollectionMethods) object).hashCode();
        }
        check(object);
        return 1;
    }

    /** The object's text; without the method, `object`. */
    public static Text toText(Object object) {
        if (object instanceof ToTextMethod) {
            return ((ToTextMethod) object).toText();
        }
        if (object instanceof String) {
            return Text.of((String) object);
        }
        check(object);
        return Text.of("object");
    }

    /** What `clone` of a class makes an object of that class for; by `tools/adapt`, where the first object is below it, a copy of that with its fields. */
    public static Object ofKind(Object like, Object made) {
        return made;
    }

    private static void check(Object object) {
        if (object == null) {
            throw new NullPointerException();
        }
    }
}
