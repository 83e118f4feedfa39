package java.util.function;

/** A function, without the default methods of the standard. */
public interface IntUnaryOperator {
    int applyAsInt(int operand);
}
