package java.util.zip;

/** A sum over bytes. */
public interface Checksum {
    void update(int value);

    void update(byte[] bytes, int first, int count);

    long getValue();

    void reset();
}
