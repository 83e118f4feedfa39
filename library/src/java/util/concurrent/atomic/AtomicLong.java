package java.util.concurrent.atomic;

import java.util.function.LongBinaryOperator;
import java.util.function.LongUnaryOperator;
import jop.Text;
import jop.ToTextMethod;

/** A number that can be changed. There is one thread, so that nothing comes between a test and a change. */
public class AtomicLong extends Number implements ToTextMethod {
    private long value;

    public AtomicLong() {
    }

    public AtomicLong(long value) {
        this.value = value;
    }

    public final long get() {
        return value;
    }

    public final void set(long other) {
        value = other;
    }

    public final void lazySet(long other) {
        value = other;
    }

    public final long getAndSet(long other) {
        long old = value;
        value = other;
        return old;
    }

    public final boolean compareAndSet(long expected, long other) {
        if (value != expected) {
            return false;
        }
        value = other;
        return true;
    }

    public final long getAndIncrement() {
        return getAndAdd(1);
    }

    public final long getAndDecrement() {
        return getAndAdd(-1);
    }

    public final long getAndAdd(long more) {
        long old = value;
        value += more;
        return old;
    }

    public final long incrementAndGet() {
        return addAndGet(1);
    }

    public final long decrementAndGet() {
        return addAndGet(-1);
    }

    public final long addAndGet(long more) {
        value += more;
        return value;
    }

    public final long updateAndGet(LongUnaryOperator update) {
        value = update.applyAsLong(value);
        return value;
    }

    public final long getAndUpdate(LongUnaryOperator update) {
        return getAndSet(update.applyAsLong(value));
    }

    public final long accumulateAndGet(long other, LongBinaryOperator both) {
        value = both.applyAsLong(value, other);
        return value;
    }

    @Override
    public int intValue() {
        return (int) value;
    }

    @Override
    public long longValue() {
        return value;
    }

    @Override
    public Text toText() {
        return Text.valueOf(value);
    }
}
