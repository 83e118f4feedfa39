import org.apache.commons.codec.digest.MurmurHash3;

/** MurmurHash3 of 32 and of 128 bits. */
public class Murmur {
    public static void main(String[] args) {
        for (int count = 0; count < 40; count += 3) {
            byte[] bytes = Data.noise(count);
            Data.put(MurmurHash3.hash32x86(bytes, 0, count, count));
            long[] hash = MurmurHash3.hash128x64(bytes, 0, count, 17);
            Data.put(hash[0]);
            Data.put(hash[1]);
        }
    }
}
