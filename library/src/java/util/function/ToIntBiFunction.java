package java.util.function;

/** A function, without the default methods of the standard. */
public interface ToIntBiFunction<T, U> {
    int applyAsInt(T first, U second);
}
