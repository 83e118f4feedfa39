package jop;

/** What maps ask of their keys. A collection is no key, so that a bound of what a map does has no ring of calls. */
public final class Keys {
    private Keys() {
    }

    /** The hash of a key, with its upper half in the lower one too; 0 for null. Raises UnsupportedOperationException for a collection. */
    public static int hashCode(Object key) {
        if (key == null) {
            return 0;
        }
        int hash = of(key);
        return hash ^ hash >>> 16;
    }

    private static int of(Object key) {
        if (key instanceof HashCodeMethod) {
            return ((HashCodeMethod) key).hashCode();
        }
        if (key instanceof String) {
            return Strings.hashCode((String) key);
        }
        if (key instanceof CollectionMethods) {
            throw new UnsupportedOperationException();
        }
        return 1;
    }

    /** Whether a key, of which a hash was asked, equals another one. */
    public static boolean equals(Object key, Object other) {
        if (key == other) {
            return true;
        }
        if (key instanceof EqualsMethod) {
            return ((EqualsMethod) key).equals(other);
        }
        return key instanceof String && Strings.equals((String) key, other);
    }
}
