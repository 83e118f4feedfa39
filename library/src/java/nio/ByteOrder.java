package java.nio;

import jop.Text;
import jop.ToTextMethod;

/** Which byte of a number stands first. */
public final class ByteOrder implements ToTextMethod {
    public static final ByteOrder BIG_ENDIAN = new ByteOrder("BIG_ENDIAN");
    public static final ByteOrder LITTLE_ENDIAN = new ByteOrder("LITTLE_ENDIAN");

    private final String name;

    private ByteOrder(String name) {
        this.name = name;
    }

    /** That of this machine's class files and memory: the high byte first. */
    public static ByteOrder nativeOrder() {
        return BIG_ENDIAN;
    }

    @Override
    public Text toText() {
        return Text.of(name);
    }
}
