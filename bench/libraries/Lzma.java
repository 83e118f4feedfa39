import java.io.ByteArrayInputStream;
import java.io.IOException;
import org.tukaani.xz.LZMAInputStream;

/** A stream of LZMA, on standard input, is unpacked. */
public class Lzma {
    public static void main(String[] args) throws IOException {
        LZMAInputStream in = new LZMAInputStream(new ByteArrayInputStream(Data.input()));
        byte[] buffer = new byte[100];
        for (int count = in.read(buffer); count >= 0; count = in.read(buffer)) {
            Data.put(buffer, count);
        }
    }
}
