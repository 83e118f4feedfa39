package java.util.function;

/** A function, without the default methods of the standard. */
public interface BinaryOperator<T> extends BiFunction<T, T, T> {
}
