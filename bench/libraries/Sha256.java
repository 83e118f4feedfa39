import org.bouncycastle.crypto.digests.SHA256Digest;

/** SHA-256. */
public class Sha256 {
    public static void main(String[] args) {
        SHA256Digest digest = new SHA256Digest();
        byte[] out = new byte[32];
        for (int count = 0; count < 150; count += 29) {
            digest.update(Data.text(count), 0, count);
            digest.doFinal(out, 0);
            Data.put(out);
        }
    }
}
