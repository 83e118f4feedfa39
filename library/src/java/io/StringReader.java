package java.io;

import jop.Copies;
import jop.Strings;

/** The chars of a string. */
public class StringReader extends Reader {
    private char[] chars;
    private int place;
    private int marked;

    public StringReader(String string) {
        chars = Strings.toCharArray(string);
    }

    private void check() throws IOException {
        if (chars == null) {
            throw new IOException("Stream closed");
        }
    }

    @Override
    public int read() throws IOException {
        check();
        if (place >= chars.length) {
            return -1;
        }
        place++;
        return chars[place - 1];
    }

    @Override
    public int read(char[] to, int first, int count) throws IOException {
        check();
        if ((first | count) < 0 || count > to.length - first) {
            throw new IndexOutOfBoundsException();
        }
        if (count == 0) {
            return 0;
        }
        int left = chars.length - place;
        if (left == 0) {
            return -1;
        }
        int read = count < left ? count : left;
        Copies.copy(chars, place, to, first, read);
        place += read;
        return read;
    }

    /** Goes on, or back where the count is negative; gives how far. */
    @Override
    public long skip(long count) throws IOException {
        check();
        if (place >= chars.length) {
            return 0;
        }
        long left = chars.length - place;
        long skipped = count > left ? left : count < -place ? -place : count;
        place += (int) skipped;
        return skipped;
    }

    @Override
    public boolean ready() throws IOException {
        check();
        return true;
    }

    @Override
    public boolean markSupported() {
        return true;
    }

    @Override
    public void mark(int count) throws IOException {
        if (count < 0) {
            throw new IllegalArgumentException();
        }
        check();
        marked = place;
    }

    @Override
    public void reset() throws IOException {
        check();
        place = marked;
    }

    @Override
    public void close() {
        chars = null;
    }
}
