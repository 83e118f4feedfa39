package java.io;

/** Chars one after another. */
public abstract class Reader implements Closeable {
    /** What is held by who reads: there is one thread. */
    protected Object lock;

    protected Reader() {
        lock = this;
    }

    /** The next char, -1 at the end. */
    public int read() throws IOException {
        char[] one = new char[1];
        return read(one, 0, 1) < 0 ? -1 : one[0];
    }

    public int read(char[] to) throws IOException {
        return read(to, 0, to.length);
    }

    /** Puts at most so many chars; gives how many, -1 at the end. */
    public abstract int read(char[] to, int first, int count) throws IOException;

    public long skip(long count) throws IOException {
        if (count < 0) {
            throw new IllegalArgumentException();
        }
        long skipped = 0;
        while (skipped < count && read() >= 0) { //@WCA loop=64 elements
            skipped++;
        }
        return skipped;
    }

    public boolean ready() throws IOException {
        return false;
    }

    public boolean markSupported() {
        return false;
    }

    public void mark(int count) throws IOException {
        throw new IOException();
    }

    public void reset() throws IOException {
        throw new IOException();
    }

    @Override
    public abstract void close() throws IOException;
}
