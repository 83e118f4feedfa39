import com.google.zxing.common.reedsolomon.GenericGF;
import com.google.zxing.common.reedsolomon.ReedSolomonDecoder;
import com.google.zxing.common.reedsolomon.ReedSolomonEncoder;
import com.google.zxing.common.reedsolomon.ReedSolomonException;

/** A word of a Reed-Solomon code is made, damaged and mended. */
public class ReedSolomon {
    public static void main(String[] args) throws ReedSolomonException {
        int[] word = new int[26];
        byte[] bytes = Data.noise(16);
        for (int k = 0; k < 16; k++) {
            word[k] = bytes[k] & 255;
        }
        new ReedSolomonEncoder(GenericGF.QR_CODE_FIELD_256).encode(word, 10);
        put(word);
        word[3] ^= 77;
        word[17] ^= 1;
        word[25] = 0;
        new ReedSolomonDecoder(GenericGF.QR_CODE_FIELD_256).decode(word, 10);
        put(word);
        try {
            for (int k = 0; k < 12; k++) {
                word[k] ^= k + 1;
            }
            new ReedSolomonDecoder(GenericGF.QR_CODE_FIELD_256).decode(word, 10);
        } catch (ReedSolomonException e) {
            jop.Io.write('!');
        }
    }

    private static void put(int[] word) {
        for (int each : word) {
            jop.Io.write(each);
        }
    }
}
