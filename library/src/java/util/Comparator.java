package java.util;

/** An order of objects. */
public interface Comparator<T> {
    int compare(T first, T second);
}
