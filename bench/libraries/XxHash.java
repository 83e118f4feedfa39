import org.apache.commons.codec.digest.XXHash32;

/** xxHash of 32 bits, as a Checksum. */
public class XxHash {
    public static void main(String[] args) {
        XXHash32 hash = new XXHash32(5);
        for (int count = 0; count < 200; count += 37) {
            hash.update(Data.noise(count), 0, count);
            Data.put(hash.getValue());
        }
        hash.update(77);
        Data.put(hash.getValue());
    }
}
