package java.io;

/** What gives bytes. */
public abstract class InputStream implements Closeable {
    /** The next byte, 0 to 255, or -1 at the end. */
    public abstract int read() throws IOException;

    public int read(byte[] to) throws IOException {
        return read(to, 0, to.length);
    }

    /** Puts at most so many bytes into an array, and gives their number, -1 at the end. */
    public int read(byte[] to, int first, int count) throws IOException {
        if ((first | count) < 0 || count > to.length - first) {
            throw new IndexOutOfBoundsException();
        }
        if (count == 0) {
            return 0;
        }
        int value = read();
        if (value < 0) {
            return -1;
        }
        int place = 0;
        while (value >= 0) { //@WCA loop=64 elements
            to[first + place] = (byte) value;
            place++;
            value = place < count ? read() : -1;
        }
        return place;
    }

    /** Passes over at most so many bytes, and gives their number. */
    public long skip(long count) throws IOException {
        long passed = 0;
        while (passed < count && read() >= 0) { //@WCA loop=64 elements
            passed++;
        }
        return passed;
    }

    public int available() throws IOException {
        return 0;
    }

    public boolean markSupported() {
        return false;
    }

    public void mark(int limit) {
    }

    public void reset() throws IOException {
        throw new IOException("mark/reset not supported");
    }

    @Override
    public void close() throws IOException {
    }
}
