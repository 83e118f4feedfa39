package java.util.concurrent.atomic;

import java.io.Serializable;
import java.util.function.BinaryOperator;
import java.util.function.UnaryOperator;
import jop.Text;
import jop.ToTextMethod;

/** A reference that can be changed. There is one thread, so that nothing comes between a test and a change. */
public class AtomicReference<V> implements Serializable, ToTextMethod {
    private V value;

    public AtomicReference() {
    }

    public AtomicReference(V value) {
        this.value = value;
    }

    public final V get() {
        return value;
    }

    public final void set(V other) {
        value = other;
    }

    public final void lazySet(V other) {
        value = other;
    }

    public final V getAndSet(V other) {
        V old = value;
        value = other;
        return old;
    }

    public final boolean compareAndSet(V expected, V other) {
        if (value != expected) {
            return false;
        }
        value = other;
        return true;
    }

    public final V updateAndGet(UnaryOperator<V> update) {
        value = update.apply(value);
        return value;
    }

    public final V getAndUpdate(UnaryOperator<V> update) {
        return getAndSet(update.apply(value));
    }

    public final V accumulateAndGet(V other, BinaryOperator<V> both) {
        value = both.apply(value, other);
        return value;
    }

    @Override
    public Text toText() {
        return Text.valueOf(value);
    }
}
