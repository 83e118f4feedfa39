package java.lang;

/** What is closed behind a try. */
public interface AutoCloseable {
    void close() throws Exception;
}
