import com.jcraft.jzlib.GZIPException;
import com.jcraft.jzlib.Inflater;
import com.jcraft.jzlib.JZlib;

/** What zlib deflated, on standard input, is inflated. */
public class Inflating {
    public static void main(String[] args) throws GZIPException {
        byte[] packed = Data.input();
        Inflater inflater = new Inflater();
        inflater.setInput(packed);
        byte[] again = new byte[3000];
        inflater.setOutput(again);
        jop.Io.write(inflater.inflate(JZlib.Z_FINISH));
        Data.put(again, (int) inflater.getTotalOut());
    }
}
