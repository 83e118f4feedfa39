package java.io;

/** What hands on the bytes that it holds. */
public interface Flushable {
    void flush() throws IOException;
}
