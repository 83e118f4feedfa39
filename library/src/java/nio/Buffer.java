package java.nio;

/** So many elements, of which those from a place up to a limit are gone through. */
public abstract class Buffer {
    private final int capacity;
    private int limit;
    private int position;
    /** The place to which `reset` goes back; -1 where there is none. */
    private int mark;

    Buffer(int capacity, int mark, int position, int limit) {
        this.capacity = capacity;
        this.mark = mark;
        this.position = position;
        this.limit = limit;
    }

    public abstract boolean isReadOnly();

    public abstract boolean hasArray();

    public abstract Object array();

    public abstract int arrayOffset();

    public abstract boolean isDirect();

    public abstract Buffer slice();

    public abstract Buffer slice(int first, int length);

    public abstract Buffer duplicate();

    public final int capacity() {
        return capacity;
    }

    public final int position() {
        return position;
    }

    public final int limit() {
        return limit;
    }

    /** Sets the place. Raises IllegalArgumentException for one behind the limit. */
    public Buffer position(int place) {
        if (place < 0 || place > limit) {
            throw new IllegalArgumentException();
        }
        position = place;
        dropMark(place);
        return this;
    }

    /** Sets the limit, and the place where it is behind. Raises IllegalArgumentException for one behind the capacity. */
    public Buffer limit(int end) {
        if (end < 0 || end > capacity) {
            throw new IllegalArgumentException();
        }
        limit = end;
        position = Math.min(position, end);
        dropMark(end);
        return this;
    }

    /** Forgets a mark behind a place. */
    private void dropMark(int place) {
        mark = mark > place ? -1 : mark;
    }

    final int markOrNone() {
        return mark;
    }

    public Buffer mark() {
        mark = position;
        return this;
    }

    public Buffer reset() {
        if (mark < 0) {
            throw new InvalidMarkException();
        }
        position = mark;
        return this;
    }

    public Buffer clear() {
        limit = capacity;
        return rewind();
    }

    public Buffer flip() {
        limit = position;
        return rewind();
    }

    public Buffer rewind() {
        position = 0;
        mark = -1;
        return this;
    }

    public final int remaining() {
        return limit - position;
    }

    public final boolean hasRemaining() {
        return position < limit;
    }

    /** The place, behind which so many elements are passed. Raises BufferUnderflowException where there are fewer. */
    final int taken(int length) {
        if (limit - position < length) {
            throw new BufferUnderflowException();
        }
        position += length;
        return position - length;
    }

    /** The place, behind which so many elements are put. Raises BufferOverflowException where there is no room. */
    final int given(int length) {
        if (limit - position < length) {
            throw new BufferOverflowException();
        }
        position += length;
        return position - length;
    }

    /** Raises IndexOutOfBoundsException where so many elements from a place on aren't in front of the limit. */
    final void check(int place, int length) {
        if (place < 0 || length > limit - place) {
            throw new IndexOutOfBoundsException();
        }
    }
}
