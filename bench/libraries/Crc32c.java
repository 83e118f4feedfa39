import org.apache.commons.codec.digest.PureJavaCrc32;
import org.apache.commons.codec.digest.PureJavaCrc32C;

/** Two cyclic redundancy checks by tables. */
public class Crc32c {
    public static void main(String[] args) {
        PureJavaCrc32 one = new PureJavaCrc32();
        PureJavaCrc32C two = new PureJavaCrc32C();
        for (int count = 1; count < 100; count += 13) {
            one.update(Data.text(count), 0, count);
            two.update(Data.text(count), 0, count);
            Data.put(one.getValue());
            Data.put(two.getValue());
        }
    }
}
