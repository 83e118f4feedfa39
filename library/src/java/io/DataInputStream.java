package java.io;

/** Numbers of the bytes of another stream. */
public class DataInputStream extends FilterInputStream implements DataInput {
    public DataInputStream(InputStream in) {
        super(in);
    }

    @Override
    public final void readFully(byte[] to) throws IOException {
        readFully(to, 0, to.length);
    }

    @Override
    public final void readFully(byte[] to, int first, int count) throws IOException {
        if ((first | count) < 0 || count > to.length - first) {
            throw new IndexOutOfBoundsException();
        }
        int place = 0;
        while (place < count) { //@WCA loop=64 elements
            int read = in.read(to, first + place, count - place);
            if (read < 0) {
                throw new EOFException();
            }
            place += read;
        }
    }

    /** Passes over at most so many bytes, and gives their number. */
    @Override
    public final int skipBytes(int count) throws IOException {
        int passed = 0;
        while (passed < count) { //@WCA loop=64 elements
            int more = (int) in.skip(count - passed);
            if (more <= 0) {
                break;
            }
            passed += more;
        }
        return passed;
    }

    @Override
    public final boolean readBoolean() throws IOException {
        return readUnsignedByte() != 0;
    }

    @Override
    public final byte readByte() throws IOException {
        return (byte) readUnsignedByte();
    }

    @Override
    public final int readUnsignedByte() throws IOException {
        int value = in.read();
        if (value < 0) {
            throw new EOFException();
        }
        return value;
    }

    @Override
    public final short readShort() throws IOException {
        return (short) readUnsignedShort();
    }

    /** Both bytes are read before the end is told. */
    @Override
    public final int readUnsignedShort() throws IOException {
        int high = in.read();
        int low = in.read();
        if ((high | low) < 0) {
            throw new EOFException();
        }
        return high << 8 | low;
    }

    @Override
    public final char readChar() throws IOException {
        return (char) readUnsignedShort();
    }

    @Override
    public final int readInt() throws IOException {
        int highest = in.read();
        int high = in.read();
        int low = in.read();
        int lowest = in.read();
        if ((highest | high | low | lowest) < 0) {
            throw new EOFException();
        }
        return highest << 24 | high << 16 | low << 8 | lowest;
    }

    @Override
    public final long readLong() throws IOException {
        long high = readInt();
        return high << 32 | readInt() & 0xffffffffL;
    }
}
