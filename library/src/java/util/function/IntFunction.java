package java.util.function;

/** A function, without the default methods of the standard. */
public interface IntFunction<R> {
    R apply(int argument);
}
