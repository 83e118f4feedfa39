import com.google.common.primitives.Ints;
import com.google.common.primitives.Longs;
import com.google.common.primitives.UnsignedInts;
import com.google.common.primitives.UnsignedLongs;

/** Numbers without a sign, and numbers as bytes. */
public class Numbers {
    public static void main(String[] args) {
        byte[] bytes = Data.noise(80);
        long last = 3;
        for (int k = 0; k < 10; k++) {
            long value = Longs.fromByteArray(java.util.Arrays.copyOfRange(bytes, 8 * k, 8 * k + 8));
            Data.put(UnsignedLongs.divide(value, last));
            Data.put(UnsignedLongs.remainder(value, last));
            Data.put(UnsignedInts.remainder((int) value, 1000) + Ints.max(3, (int) last));
            jop.Io.write(UnsignedLongs.compare(value, last));
            last = value >>> k;
            Data.put(Longs.toByteArray(last));
        }
    }
}
