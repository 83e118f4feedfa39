package java.io;

/** What takes numbers of several bytes, the high byte first. */
public interface DataOutput {
    void write(int value) throws IOException;

    void write(byte[] bytes) throws IOException;

    void write(byte[] bytes, int first, int count) throws IOException;

    void writeBoolean(boolean value) throws IOException;

    void writeByte(int value) throws IOException;

    void writeShort(int value) throws IOException;

    void writeChar(int value) throws IOException;

    void writeInt(int value) throws IOException;

    void writeLong(long value) throws IOException;
}
