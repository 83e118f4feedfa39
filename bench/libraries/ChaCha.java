import org.bouncycastle.crypto.engines.ChaChaEngine;
import org.bouncycastle.crypto.params.KeyParameter;
import org.bouncycastle.crypto.params.ParametersWithIV;

/** The stream cipher ChaCha. */
public class ChaCha {
    public static void main(String[] args) {
        ChaChaEngine engine = new ChaChaEngine();
        engine.init(true, new ParametersWithIV(new KeyParameter(Data.noise(32)), Data.text(8)));
        byte[] bytes = Data.text(200);
        engine.processBytes(bytes, 0, 200, bytes, 0);
        Data.put(bytes);
    }
}
