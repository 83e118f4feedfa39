import org.bouncycastle.crypto.engines.AESEngine;
import org.bouncycastle.crypto.params.KeyParameter;

/** AES of three lengths of keys, both ways. */
public class Aes {
    public static void main(String[] args) {
        AESEngine engine = new AESEngine();
        byte[] block = Data.noise(16);
        for (int length = 16; length <= 32; length += 8) {
            engine.init(true, new KeyParameter(Data.text(length)));
            engine.processBlock(block, 0, block, 0);
            Data.put(block);
            engine.init(false, new KeyParameter(Data.text(length)));
            engine.processBlock(block, 0, block, 0);
            Data.put(block);
        }
    }
}
