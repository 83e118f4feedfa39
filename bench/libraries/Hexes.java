import org.apache.commons.codec.DecoderException;
import org.apache.commons.codec.binary.Hex;

/** Bytes as hexadecimal digits and back. */
public class Hexes {
    public static void main(String[] args) throws DecoderException {
        char[] digits = Hex.encodeHex(Data.noise(40));
        for (char each : digits) {
            jop.Io.write(each);
        }
        Data.put(Hex.decodeHex(digits));
        try {
            Hex.decodeHex(new char[] {'1', 'x'});
        } catch (DecoderException e) {
            jop.Io.write('!');
        }
    }
}
