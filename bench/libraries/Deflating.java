import com.jcraft.jzlib.Deflater;
import com.jcraft.jzlib.GZIPException;
import com.jcraft.jzlib.Inflater;
import com.jcraft.jzlib.JZlib;

/** Bytes are deflated and inflated again. */
public class Deflating {
    public static void main(String[] args) throws GZIPException {
        byte[] bytes = Data.text(600);
        Deflater deflater = new Deflater(JZlib.Z_BEST_COMPRESSION, 9);
        byte[] packed = new byte[700];
        deflater.setInput(bytes);
        deflater.setOutput(packed);
        jop.Io.write(deflater.deflate(JZlib.Z_FINISH));
        int count = (int) deflater.getTotalOut();
        Data.put(packed, count);
        Inflater inflater = new Inflater();
        inflater.setInput(packed, 0, count, false);
        byte[] again = new byte[600];
        inflater.setOutput(again);
        jop.Io.write(inflater.inflate(JZlib.Z_FINISH));
        Data.put(again);
    }
}
