package java.util.function;

/** A function, without the default methods of the standard. */
public interface IntBinaryOperator {
    int applyAsInt(int left, int right);
}
