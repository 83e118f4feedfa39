import org.tukaani.xz.check.CRC64;

/** A cyclic redundancy check of 64 bits. */
public class Crc64 {
    public static void main(String[] args) {
        CRC64 check = new CRC64();
        check.update(Data.text(300), 0, 300);
        Data.put(check.finish());
    }
}
