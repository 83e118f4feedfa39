package java.util.concurrent;

/** What can be called for a result. */
public interface Callable<V> {
    V call() throws Exception;
}
