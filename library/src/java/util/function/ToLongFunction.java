package java.util.function;

/** A function, without the default methods of the standard. */
public interface ToLongFunction<T> {
    long applyAsLong(T argument);
}
