package java.util.function;

/** A function, without the default methods of the standard. */
public interface LongToIntFunction {
    int applyAsInt(long argument);
}
