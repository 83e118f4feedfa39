import org.bouncycastle.crypto.digests.Blake2bDigest;

/** BLAKE2b. */
public class Blake {
    public static void main(String[] args) {
        Blake2bDigest digest = new Blake2bDigest(256);
        byte[] out = new byte[32];
        digest.update(Data.text(200), 0, 200);
        digest.doFinal(out, 0);
        Data.put(out);
    }
}
