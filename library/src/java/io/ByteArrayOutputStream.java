package java.io;

import jop.Copies;

/** What keeps bytes in an array. */
public class ByteArrayOutputStream extends OutputStream {
    protected byte[] buf;
    protected int count;

    public ByteArrayOutputStream() {
        this(32);
    }

    public ByteArrayOutputStream(int size) {
        if (size < 0) {
            throw new IllegalArgumentException();
        }
        buf = new byte[size];
    }

    private void makeRoom(int length) {
        if (length > buf.length) {
            int twice = 2 * buf.length;
            byte[] grown = new byte[length > twice ? length : twice];
            Copies.copy(buf, 0, grown, 0, count);
            buf = grown;
        }
    }

    @Override
    public void write(int value) {
        makeRoom(count + 1);
        buf[count] = (byte) value;
        count++;
    }

    @Override
    public void write(byte[] bytes, int first, int length) {
        if ((first | length) < 0 || length > bytes.length - first) {
            throw new IndexOutOfBoundsException();
        }
        makeRoom(count + length);
        Copies.copy(bytes, first, buf, count, length);
        count += length;
    }

    public void writeTo(OutputStream out) throws IOException {
        out.write(buf, 0, count);
    }

    public void reset() {
        count = 0;
    }

    public byte[] toByteArray() {
        byte[] bytes = new byte[count];
        Copies.copy(buf, 0, bytes, 0, count);
        return bytes;
    }

    public int size() {
        return count;
    }
}
