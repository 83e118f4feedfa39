package java.util.function;

/** A function, without the default methods of the standard. */
public interface BiPredicate<T, U> {
    boolean test(T first, U second);
}
