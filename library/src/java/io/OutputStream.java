package java.io;

/** What takes bytes. */
public abstract class OutputStream implements Closeable, Flushable {
    public abstract void write(int value) throws IOException;

    public void write(byte[] bytes) throws IOException {
        write(bytes, 0, bytes.length);
    }

    public void write(byte[] bytes, int first, int count) throws IOException {
        if ((first | count) < 0 || count > bytes.length - first) {
            throw new IndexOutOfBoundsException();
        }
        for (int i = 0; i < count; i++) { //@WCA loop=64 elements
            write(bytes[first + i]);
        }
    }

    @Override
    public void flush() throws IOException {
    }

    @Override
    public void close() throws IOException {
    }
}
