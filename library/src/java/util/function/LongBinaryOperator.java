package java.util.function;

/** A function, without the default methods of the standard. */
public interface LongBinaryOperator {
    long applyAsLong(long left, long right);
}
