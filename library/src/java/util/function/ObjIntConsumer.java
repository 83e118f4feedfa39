package java.util.function;

/** A function, without the default methods of the standard. */
public interface ObjIntConsumer<T> {
    void accept(T first, int second);
}
