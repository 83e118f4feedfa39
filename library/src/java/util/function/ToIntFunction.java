package java.util.function;

/** A function, without the default methods of the standard. */
public interface ToIntFunction<T> {
    int applyAsInt(T argument);
}
