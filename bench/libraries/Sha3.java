import org.bouncycastle.crypto.digests.SHA3Digest;

/** SHA-3. */
public class Sha3 {
    public static void main(String[] args) {
        SHA3Digest digest = new SHA3Digest(256);
        byte[] out = new byte[32];
        digest.update(Data.text(200), 0, 200);
        digest.doFinal(out, 0);
        Data.put(out);
    }
}
