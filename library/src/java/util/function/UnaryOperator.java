package java.util.function;

/** A function, without the default methods of the standard. */
public interface UnaryOperator<T> extends Function<T, T> {
}
