package java.util.concurrent.atomic;

import java.util.function.IntBinaryOperator;
import java.util.function.IntUnaryOperator;
import jop.Text;
import jop.ToTextMethod;

/** A number that can be changed. There is one thread, so that nothing comes between a test and a change. */
public class AtomicInteger extends Number implements ToTextMethod {
    private int value;

    public AtomicInteger() {
    }

    public AtomicInteger(int value) {
        this.value = value;
    }

    public final int get() {
        return value;
    }

    public final void set(int other) {
        value = other;
    }

    public final void lazySet(int other) {
        value = other;
    }

    public final int getAndSet(int other) {
        int old = value;
        value = other;
        return old;
    }

    public final boolean compareAndSet(int expected, int other) {
        if (value != expected) {
            return false;
        }
        value = other;
        return true;
    }

    public final int getAndIncrement() {
        return getAndAdd(1);
    }

    public final int getAndDecrement() {
        return getAndAdd(-1);
    }

    public final int getAndAdd(int more) {
        int old = value;
        value += more;
        return old;
    }

    public final int incrementAndGet() {
        return addAndGet(1);
    }

    public final int decrementAndGet() {
        return addAndGet(-1);
    }

    public final int addAndGet(int more) {
        value += more;
        return value;
    }

    public final int updateAndGet(IntUnaryOperator update) {
        value = update.applyAsInt(value);
        return value;
    }

    public final int getAndUpdate(IntUnaryOperator update) {
        return getAndSet(update.applyAsInt(value));
    }

    public final int accumulateAndGet(int other, IntBinaryOperator both) {
        value = both.applyAsInt(value, other);
        return value;
    }

    @Override
    public int intValue() {
        return value;
    }

    @Override
    public long longValue() {
        return value;
    }

    @Override
    public Text toText() {
        return Text.valueOf(value);
    }
}
