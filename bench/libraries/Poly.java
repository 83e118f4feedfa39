import org.bouncycastle.crypto.macs.Poly1305;
import org.bouncycastle.crypto.params.KeyParameter;

/** The authenticator Poly1305, whose products are longs. */
public class Poly {
    public static void main(String[] args) {
        Poly1305 mac = new Poly1305();
        mac.init(new KeyParameter(Data.noise(32)));
        byte[] out = new byte[16];
        for (int count = 1; count < 90; count += 22) {
            mac.update(Data.text(count), 0, count);
            mac.doFinal(out, 0);
            Data.put(out);
        }
    }
}
