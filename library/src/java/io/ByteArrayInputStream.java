package java.io;

import jop.Copies;

/** What gives the bytes of an array. */
public class ByteArrayInputStream extends InputStream {
    protected byte[] buf;
    protected int pos;
    protected int mark;
    protected int count;

    public ByteArrayInputStream(byte[] bytes) {
        buf = bytes;
        count = bytes.length;
    }

    public ByteArrayInputStream(byte[] bytes, int first, int length) {
        buf = bytes;
        pos = first;
        mark = first;
        count = length < bytes.length - first ? first + length : bytes.length;
    }

    @Override
    public int read() {
        if (pos >= count) {
            return -1;
        }
        int value = buf[pos] & 0xff;
        pos++;
        return value;
    }

    @Override
    public int read(byte[] to, int first, int length) {
        if ((first | length) < 0 || length > to.length - first) {
            throw new IndexOutOfBoundsException();
        }
        if (pos >= count) {
            return -1;
        }
        int taken = length < count - pos ? length : count - pos;
        Copies.copy(buf, pos, to, first, taken);
        pos += taken;
        return taken;
    }

    @Override
    public long skip(long length) {
        int rest = count - pos;
        int passed = length < 0 ? 0 : length < rest ? (int) length : rest;
        pos += passed;
        return passed;
    }

    @Override
    public int available() {
        return count - pos;
    }

    @Override
    public boolean markSupported() {
        return true;
    }

    @Override
    public void mark(int limit) {
        mark = pos;
    }

    @Override
    public void reset() {
        pos = mark;
    }
}
