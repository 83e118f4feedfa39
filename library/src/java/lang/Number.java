package java.lang;

import java.io.Serializable;

/** Numbers as objects, without the methods on float and double. */
public abstract class Number implements Serializable {
    public abstract int intValue();

    public abstract long longValue();

    public byte byteValue() {
        return (byte) intValue();
    }

    public short shortValue() {
        return (short) intValue();
    }
}
