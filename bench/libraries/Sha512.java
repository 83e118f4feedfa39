import org.bouncycastle.crypto.digests.SHA512Digest;

/** SHA-512. */
public class Sha512 {
    public static void main(String[] args) {
        SHA512Digest digest = new SHA512Digest();
        byte[] out = new byte[64];
        for (int count = 0; count < 150; count += 49) {
            digest.update(Data.text(count), 0, count);
            digest.doFinal(out, 0);
            Data.put(out);
        }
    }
}
