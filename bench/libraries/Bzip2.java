import java.io.ByteArrayInputStream;
import java.io.IOException;
import org.apache.commons.compress.compressors.bzip2.BZip2CompressorInputStream;

/** A stream of bzip2, on standard input, is unpacked. */
public class Bzip2 {
    public static void main(String[] args) throws IOException {
        BZip2CompressorInputStream in = new BZip2CompressorInputStream(new ByteArrayInputStream(Data.input()));
        byte[] buffer = new byte[100];
        for (int count = in.read(buffer); count >= 0; count = in.read(buffer)) {
            Data.put(buffer, count);
        }
    }
}
