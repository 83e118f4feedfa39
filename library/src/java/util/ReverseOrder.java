package java.util;

import java.io.Serializable;

/** The order against that of `compareTo`. */
final class ReverseOrder<T> implements Comparator<T>, Serializable {
    @Override
    public int compare(T first, T second) {
        return ((Comparable<T>) second).compareTo(first);
    }
}
