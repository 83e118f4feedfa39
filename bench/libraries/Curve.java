import org.bouncycastle.math.ec.rfc7748.X25519Field;

/** Products in the field of Curve25519. */
public class Curve {
    public static void main(String[] args) {
        int[] one = X25519Field.create();
        int[] two = X25519Field.create();
        X25519Field.decode(Data.noise(32), 0, one);
        X25519Field.decode(Data.text(32), 0, two);
        byte[] out = new byte[32];
        for (int k = 0; k < 4; k++) {
            X25519Field.mul(one, two, one);
            X25519Field.sqr(one, two);
            X25519Field.add(one, two, one);
            X25519Field.normalize(one);
            X25519Field.encode(one, out, 0);
            Data.put(out);
        }
    }
}
