package java.util.concurrent.atomic;

import java.io.Serializable;
import jop.Text;
import jop.ToTextMethod;

/** A truth value that can be changed. There is one thread, so that nothing comes between a test and a change. */
public class AtomicBoolean implements Serializable, ToTextMethod {
    private boolean value;

    public AtomicBoolean() {
    }

    public AtomicBoolean(boolean value) {
        this.value = value;
    }

    public final boolean get() {
        return value;
    }

    public final void set(boolean other) {
        value = other;
    }

    public final boolean getAndSet(boolean other) {
        boolean old = value;
        value = other;
        return old;
    }

    public final boolean compareAndSet(boolean expected, boolean other) {
        if (value != expected) {
            return false;
        }
        value = other;
        return true;
    }

    @Override
    public Text toText() {
        return Text.valueOf(value);
    }
}
