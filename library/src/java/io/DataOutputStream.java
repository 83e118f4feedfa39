package java.io;

/** Numbers as bytes for another stream. */
public class DataOutputStream extends FilterOutputStream implements DataOutput {
    /** How many bytes were put, at most the greatest int. */
    protected int written;

    public DataOutputStream(OutputStream out) {
        super(out);
    }

    @Override
    public void write(int value) throws IOException {
        out.write(value);
        written = written == 0x7fffffff ? written : written + 1;
    }

    @Override
    public void write(byte[] bytes, int first, int count) throws IOException {
        out.write(bytes, first, count);
        written = count > 0x7fffffff - written ? 0x7fffffff : written + count;
    }

    @Override
    public final void writeBoolean(boolean value) throws IOException {
        write(value ? 1 : 0);
    }

    @Override
    public final void writeByte(int value) throws IOException {
        write(value);
    }

    @Override
    public final void writeShort(int value) throws IOException {
        write(value >>> 8);
        write(value);
    }

    @Override
    public final void writeChar(int value) throws IOException {
        writeShort(value);
    }

    @Override
    public final void writeInt(int value) throws IOException {
        writeShort(value >>> 16);
        writeShort(value);
    }

    @Override
    public final void writeLong(long value) throws IOException {
        writeInt((int) (value >>> 32));
        writeInt((int) value);
    }

    public final int size() {
        return written;
    }
}
