package java.io;

/** What gives numbers of several bytes, the high byte first. */
public interface DataInput {
    void readFully(byte[] to) throws IOException;

    void readFully(byte[] to, int first, int count) throws IOException;

    int skipBytes(int count) throws IOException;

    boolean readBoolean() throws IOException;

    byte readByte() throws IOException;

    int readUnsignedByte() throws IOException;

    short readShort() throws IOException;

    int readUnsignedShort() throws IOException;

    char readChar() throws IOException;

    int readInt() throws IOException;

    long readLong() throws IOException;
}
