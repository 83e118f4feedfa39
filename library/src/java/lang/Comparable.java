package java.lang;

/** Objects that have an order. */
public interface Comparable<T> {
    int compareTo(T other);
}
