import com.google.common.math.IntMath;

/** Mathematics of ints. */
public class Mathematics {
    public static void main(String[] args) {
        for (int k = 1; k < 40; k += 3) {
            Data.put(IntMath.gcd(360 * k, 84 + k));
            Data.put(IntMath.pow(k, 5));
            Data.put(IntMath.mod(-k, 7));
            jop.Io.write(IntMath.isPrime(k) ? 1 : 0);
        }
    }
}
