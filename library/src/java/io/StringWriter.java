package java.io;

import jop.Text;
import jop.ToTextMethod;

/** Takes chars into a StringBuilder. */
public class StringWriter extends Writer implements ToTextMethod {
    private final StringBuilder written;

    public StringWriter() {
        written = new StringBuilder();
    }

    public StringWriter(int capacity) {
        if (capacity < 0) {
            throw new IllegalArgumentException();
        }
        written = new StringBuilder(capacity);
    }

    @Override
    public void write(int value) {
        written.append((char) value);
    }

    @Override
    public void write(char[] from, int first, int count) {
        if ((first | count) < 0 || count > from.length - first) {
            throw new IndexOutOfBoundsException();
        }
        written.append(from, first, count);
    }

    @Override
    public StringWriter append(CharSequence chars) {
        written.append(chars);
        return this;
    }

    @Override
    public StringWriter append(CharSequence chars, int first, int end) {
        written.append(chars, first, end);
        return this;
    }

    @Override
    public StringWriter append(char value) {
        written.append(value);
        return this;
    }

    @Override
    public void flush() {
    }

    @Override
    public void close() throws IOException {
    }

    @Override
    public Text toText() {
        return written.toText();
    }
}
