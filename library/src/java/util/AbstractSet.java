package java.util;

import jop.CollectionMethods;

/** What sets have in common. */
public abstract class AbstractSet<E> extends AbstractCollection<E> implements Set<E>, CollectionMethods {
    protected AbstractSet() {
    }

    /** Whether the other object is a set of as many elements, of which this one has each. */
    @Override
    public boolean equals(Object other) {
        if (other == this) {
            return true;
        }
        if (!(other instanceof Set) || ((Set<?>) other).size() != size()) {
            return false;
        }
        Object[] all = ((Set<?>) other).toArray();
        for (int i = 0; i < all.length; i++) { //@WCA loop=64 elements
            if (!contains(all[i])) {
                return false;
            }
        }
        return true;
    }

    @Override
    public int hashCode() {
        int hash = 0;
        Object[] all = toArray();
        for (int i = 0; i < all.length; i++) { //@WCA loop=64 elements
            hash += Objects.hashCode(all[i]);
        }
        return hash;
    }
}
