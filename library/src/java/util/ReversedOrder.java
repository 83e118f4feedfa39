package java.util;

import java.io.Serializable;

/** The order against another one. */
final class ReversedOrder<T> implements Comparator<T>, Serializable {
    private final Comparator<T> order;

    ReversedOrder(Comparator<T> order) {
        this.order = order;
    }

    @Override
    public int compare(T first, T second) {
        return order.compare(second, first);
    }
}
