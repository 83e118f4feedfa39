import java.io.ByteArrayInputStream;
import java.io.ByteArrayOutputStream;
import java.io.IOException;
import org.apache.commons.compress.compressors.snappy.SnappyCompressorInputStream;

/** A block of Snappy, made by hand, is unpacked. */
public class Snappy {
    public static void main(String[] args) throws IOException {
        ByteArrayOutputStream packed = new ByteArrayOutputStream();
        packed.write(44);
        packed.write(19 << 2);
        packed.write(Data.text(20));
        packed.write(7 << 2 | 1 | 0 << 5);
        packed.write(9);
        packed.write(12 << 2 | 2);
        packed.write(20);
        packed.write(0);
        SnappyCompressorInputStream in = new SnappyCompressorInputStream(new ByteArrayInputStream(packed.toByteArray()));
        byte[] buffer = new byte[50];
        for (int count = in.read(buffer); count >= 0; count = in.read(buffer)) {
            Data.put(buffer, count);
        }
    }
}
