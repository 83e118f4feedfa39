package jop;

import java.util.Collection;
import java.util.Collections;
import java.util.Comparator;
import java.util.Iterator;
import java.util.List;
import java.util.Objects;
import java.util.function.Consumer;
import java.util.function.Predicate;
import java.util.function.UnaryOperator;

/** The default methods of interfaces, as static ones whose first argument is the object: `tools/adapt` gives each to its interface. */
public final class Defaults {
    private Defaults() {
    }

    public static void forEach(Iterable<?> all, Consumer<Object> action) {
        Objects.requireNonNull(action);
        Iterator<?> each = all.iterator();
        while (each.hasNext()) { //@WCA loop=64 elements
            action.accept(each.next());
        }
    }

    public static void forEachRemaining(Iterator<?> each, Consumer<Object> action) {
        Objects.requireNonNull(action);
        while (each.hasNext()) { //@WCA loop=64 elements
            action.accept(each.next());
        }
    }

    public static boolean removeIf(Collection<?> all, Predicate<Object> filter) {
        Objects.requireNonNull(filter);
        boolean isChanged = false;
        Iterator<?> each = all.iterator();
        while (each.hasNext()) { //@WCA loop=64 elements
            if (filter.test(each.next())) {
                each.remove();
                isChanged = true;
            }
        }
        return isChanged;
    }

    /** The elements in an array of the class of another one: in that, where there is room. */
    public static Object[] toArray(Collection<?> all, Object[] to) {
        Object[] from = all.toArray();
        Object[] whole = to.length < from.length ? Arrays.ofKind(to, from.length) : to;
        Copies.copy(from, 0, whole, 0, from.length);
        if (whole.length > from.length) {
            whole[from.length] = null;
        }
        return whole;
    }

    public static boolean containsAll(Collection<?> all, Collection<?> others) {
        Iterator<?> each = others.iterator();
        while (each.hasNext()) { //@WCA loop=64 elements
            if (!all.contains(each.next())) {
                return false;
            }
        }
        return true;
    }

    public static boolean removeAll(Collection<?> all, Collection<?> others) {
        return removeWhere(all, others, true);
    }

    public static boolean retainAll(Collection<?> all, Collection<?> others) {
        return removeWhere(all, others, false);
    }

    private static boolean removeWhere(Collection<?> all, Collection<?> others, boolean isThere) {
        Objects.requireNonNull(others);
        boolean isChanged = false;
        Iterator<?> each = all.iterator();
        while (each.hasNext()) { //@WCA loop=64 elements
            if (others.contains(each.next()) == isThere) {
                each.remove();
                isChanged = true;
            }
        }
        return isChanged;
    }

    public static void sort(List<Object> list, Comparator<Object> order) {
        Collections.sort(list, order);
    }

    public static void replaceAll(List<Object> list, UnaryOperator<Object> change) {
        Objects.requireNonNull(change);
        int count = list.size();
        for (int i = 0; i < count; i++) { //@WCA loop=64 elements
            list.set(i, change.apply(list.get(i)));
        }
    }

    public static boolean addAll(List<Object> list, int place, Collection<?> elements) {
        Object[] added = elements.toArray();
        for (int i = 0; i < added.length; i++) { //@WCA loop=64 elements
            list.add(place + i, added[i]);
        }
        return added.length > 0;
    }

    public static Comparator<Object> reversed(Comparator<Object> order) {
        return Collections.reverseOrder(order);
    }
}
