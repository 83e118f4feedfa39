package java.util.function;

/** A function, without the default methods of the standard. */
public interface BiConsumer<T, U> {
    void accept(T first, U second);
}
