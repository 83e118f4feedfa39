package java.util.function;

/** A function, without the default methods of the standard. */
public interface Function<T, R> {
    R apply(T argument);
}
