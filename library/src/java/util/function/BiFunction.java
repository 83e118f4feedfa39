package java.util.function;

/** A function, without the default methods of the standard. */
public interface BiFunction<T, U, R> {
    R apply(T first, U second);
}
