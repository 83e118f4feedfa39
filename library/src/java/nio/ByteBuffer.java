package java.nio;

import jop.Copies;
import jop.EqualsMethod;
import jop.HashCodeMethod;
import jop.Text;
import jop.ToTextMethod;

/** Bytes of an array, read and written one after another or by places, also as numbers of several bytes. */
public final class ByteBuffer extends Buffer implements Comparable<ByteBuffer>, EqualsMethod, HashCodeMethod, ToTextMethod {
    private final byte[] bytes;
    private final int offset;
    private final boolean isReadOnly;
    private boolean isBig = true;

    private ByteBuffer(byte[] bytes, int offset, int[] places, boolean isReadOnly) {
        super(places[0], places[1], places[2], places[3]);
        this.bytes = bytes;
        this.offset = offset;
        this.isReadOnly = isReadOnly;
    }

    public static ByteBuffer allocate(int capacity) {
        if (capacity < 0) {
            throw new IllegalArgumentException();
        }
        return wrap(new byte[capacity]);
    }

    public static ByteBuffer wrap(byte[] bytes) {
        return wrap(bytes, 0, bytes.length);
    }

    /** One over the whole array, whose place and limit are those of a part. */
    public static ByteBuffer wrap(byte[] bytes, int first, int length) {
        checkPart(bytes.length, first, length);
        return new ByteBuffer(bytes, 0, new int[] {bytes.length, -1, first, first + length}, false);
    }

    private static void checkPart(int count, int first, int length) {
        if ((first | length) < 0 || length > count - first) {
            throw new IndexOutOfBoundsException();
        }
    }

    @Override
    public ByteBuffer slice() {
        return slice(position(), remaining());
    }

    @Override
    public ByteBuffer slice(int first, int length) {
        checkPart(limit(), first, length);
        return new ByteBuffer(bytes, offset + first, new int[] {length, -1, 0, length}, isReadOnly);
    }

    @Override
    public ByteBuffer duplicate() {
        return shown(isReadOnly);
    }

    public ByteBuffer asReadOnlyBuffer() {
        return shown(true);
    }

    private ByteBuffer shown(boolean isReadOnly) {
        return new ByteBuffer(bytes, offset, new int[] {capacity(), markOrNone(), position(), limit()}, isReadOnly);
    }

    @Override
    public boolean isReadOnly() {
        return isReadOnly;
    }

    @Override
    public boolean isDirect() {
        return false;
    }

    @Override
    public boolean hasArray() {
        return !isReadOnly;
    }

    @Override
    public byte[] array() {
        checkWritable();
        return bytes;
    }

    @Override
    public int arrayOffset() {
        checkWritable();
        return offset;
    }

    private void checkWritable() {
        if (isReadOnly) {
            throw new ReadOnlyBufferException();
        }
    }

    public ByteOrder order() {
        return isBig ? ByteOrder.BIG_ENDIAN : ByteOrder.LITTLE_ENDIAN;
    }

    public ByteBuffer order(ByteOrder order) {
        isBig = order == ByteOrder.BIG_ENDIAN;
        return this;
    }

    @Override
    public ByteBuffer position(int place) {
        super.position(place);
        return this;
    }

    @Override
    public ByteBuffer limit(int end) {
        super.limit(end);
        return this;
    }

    @Override
    public ByteBuffer mark() {
        super.mark();
        return this;
    }

    @Override
    public ByteBuffer reset() {
        super.reset();
        return this;
    }

    @Override
    public ByteBuffer clear() {
        super.clear();
        return this;
    }

    @Override
    public ByteBuffer flip() {
        super.flip();
        return this;
    }

    @Override
    public ByteBuffer rewind() {
        super.rewind();
        return this;
    }

    /** Moves what remains to the begin; the place is behind it, and the limit the capacity. */
    public ByteBuffer compact() {
        checkWritable();
        int count = remaining();
        Copies.copy(bytes, offset + position(), bytes, offset, count);
        clear();
        return position(count);
    }

    public byte get() {
        return bytes[offset + taken(1)];
    }

    public byte get(int place) {
        check(place, 1);
        return bytes[offset + place];
    }

    public ByteBuffer get(byte[] to) {
        return get(to, 0, to.length);
    }

    public ByteBuffer get(byte[] to, int first, int length) {
        checkPart(to.length, first, length);
        Copies.copy(bytes, offset + taken(length), to, first, length);
        return this;
    }

    public ByteBuffer put(byte value) {
        checkWritable();
        bytes[offset + given(1)] = value;
        return this;
    }

    public ByteBuffer put(int place, byte value) {
        checkWritable();
        check(place, 1);
        bytes[offset + place] = value;
        return this;
    }

    public ByteBuffer put(byte[] from) {
        return put(from, 0, from.length);
    }

    public ByteBuffer put(byte[] from, int first, int length) {
        checkWritable();
        checkPart(from.length, first, length);
        Copies.copy(from, first, bytes, offset + given(length), length);
        return this;
    }

    /** Takes all that remains of another one. */
    public ByteBuffer put(ByteBuffer from) {
        if (from == this) {
            throw new IllegalArgumentException();
        }
        checkWritable();
        int length = from.remaining();
        int to = given(length);
        Copies.copy(from.bytes, from.offset + from.taken(length), bytes, offset + to, length);
        return this;
    }

    /** Two bytes from a place of the array on, as a number without a sign. */
    private int half(int at) {
        int first = bytes[at] & 0xff;
        int second = bytes[at + 1] & 0xff;
        return isBig ? first << 8 | second : second << 8 | first;
    }

    private int word(int at) {
        int first = half(at);
        int second = half(at + 2);
        return isBig ? first << 16 | second : second << 16 | first;
    }

    private long twoWords(int at) {
        long first = word(at) & 0xffffffffL;
        long second = word(at + 4) & 0xffffffffL;
        return isBig ? first << 32 | second : second << 32 | first;
    }

    private ByteBuffer putHalf(int at, int value) {
        bytes[at] = (byte) (isBig ? value >> 8 : value);
        bytes[at + 1] = (byte) (isBig ? value : value >> 8);
        return this;
    }

    private ByteBuffer putWord(int at, int value) {
        putHalf(at, isBig ? value >>> 16 : value);
        return putHalf(at + 2, isBig ? value : value >>> 16);
    }

    private ByteBuffer putTwoWords(int at, long value) {
        putWord(at, (int) (isBig ? value >>> 32 : value));
        return putWord(at + 4, (int) (isBig ? value : value >>> 32));
    }

    /** The place in the array of a number of so many bytes, which are passed. */
    private int next(int length) {
        return offset + taken(length);
    }

    private int at(int place, int length) {
        check(place, length);
        return offset + place;
    }

    private int nextPut(int length) {
        checkWritable();
        return offset + given(length);
    }

    private int putAt(int place, int length) {
        checkWritable();
        return at(place, length);
    }

    public char getChar() {
        return (char) half(next(2));
    }

    public char getChar(int place) {
        return (char) half(at(place, 2));
    }

    public ByteBuffer putChar(char value) {
        return putHalf(nextPut(2), value);
    }

    public ByteBuffer putChar(int place, char value) {
        return putHalf(putAt(place, 2), value);
    }

    public short getShort() {
        return (short) half(next(2));
    }

    public short getShort(int place) {
        return (short) half(at(place, 2));
    }

    public ByteBuffer putShort(short value) {
        return putHalf(nextPut(2), value);
    }

    public ByteBuffer putShort(int place, short value) {
        return putHalf(putAt(place, 2), value);
    }

    public int getInt() {
        return word(next(4));
    }

    public int getInt(int place) {
        return word(at(place, 4));
    }

    public ByteBuffer putInt(int value) {
        return putWord(nextPut(4), value);
    }

    public ByteBuffer putInt(int place, int value) {
        return putWord(putAt(place, 4), value);
    }

    public long getLong() {
        return twoWords(next(8));
    }

    public long getLong(int place) {
        return twoWords(at(place, 8));
    }

    public ByteBuffer putLong(long value) {
        return putTwoWords(nextPut(8), value);
    }

    public ByteBuffer putLong(int place, long value) {
        return putTwoWords(putAt(place, 8), value);
    }

    /** Whether the other object is one whose remaining bytes are the same. */
    @Override
    public boolean equals(Object other) {
        return other == this || other instanceof ByteBuffer && ((ByteBuffer) other).remaining() == remaining() && compareTo((ByteBuffer) other) == 0;
    }

    @Override
    public int hashCode() {
        int hash = 1;
        int first = position();
        for (int i = limit() - 1; i >= first; i--) { //@WCA loop=64 elements
            hash = 31 * hash + bytes[offset + i];
        }
        return hash;
    }

    /** By the first of the remaining bytes that differ, with their signs; else by how many there are. */
    @Override
    public int compareTo(ByteBuffer other) {
        int count = Math.min(remaining(), other.remaining());
        int first = offset + position();
        int second = other.offset + other.position();
        for (int i = 0; i < count; i++) { //@WCA loop=64 elements
            int difference = bytes[first + i] - other.bytes[second + i];
            if (difference != 0) {
                return difference;
            }
        }
        return remaining() - other.remaining();
    }

    @Override
    public Text toText() {
        return new StringBuilder().append(isReadOnly ? "java.nio.HeapByteBufferR[pos=" : "java.nio.HeapByteBuffer[pos=").append(position())
            .append(" lim=").append(limit()).append(" cap=").append(capacity()).append(']').toText();
    }
}
