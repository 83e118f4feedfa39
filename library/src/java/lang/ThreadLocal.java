package java.lang;

/** A variable of the one thread. */
public class ThreadLocal<T> {
    private T value;
    private boolean isSet;

    public ThreadLocal() {
    }

    protected T initialValue() {
        return null;
    }

    public T get() {
        if (!isSet) {
            set(initialValue());
        }
        return value;
    }

    public void set(T other) {
        value = other;
        isSet = true;
    }

    public void remove() {
        value = null;
        isSet = false;
    }
}
