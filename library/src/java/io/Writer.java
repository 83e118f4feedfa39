package java.io;

import jop.Strings;
import jop.Text;

/** Takes chars one after another. */
public abstract class Writer implements Appendable, Closeable, Flushable {
    /** What is held by who writes: there is one thread. */
    protected Object lock;

    protected Writer() {
        lock = this;
    }

    /** The low 16 bits as a char. */
    public void write(int value) throws IOException {
        write(new char[] {(char) value}, 0, 1);
    }

    public void write(char[] from) throws IOException {
        write(from, 0, from.length);
    }

    public abstract void write(char[] from, int first, int count) throws IOException;

    public void write(String string) throws IOException {
        char[] chars = Strings.toCharArray(string);
        write(chars, 0, chars.length);
    }

    public void write(String string, int first, int count) throws IOException {
        if ((first | count) < 0 || count > string.length() - first) {
            throw new StringIndexOutOfBoundsException();
        }
        write(Strings.toCharArray(string), first, count);
    }

    @Override
    public Writer append(CharSequence chars) throws IOException {
        char[] all = Text.toChars(chars);
        write(all, 0, all.length);
        return this;
    }

    @Override
    public Writer append(CharSequence chars, int first, int end) throws IOException {
        char[] all = Text.toChars(chars);
        if (first < 0 || end > all.length || first > end) {
            throw new StringIndexOutOfBoundsException();
        }
        write(all, first, end - first);
        return this;
    }

    @Override
    public Writer append(char value) throws IOException {
        write(value);
        return this;
    }

    @Override
    public abstract void flush() throws IOException;

    @Override
    public abstract void close() throws IOException;
}
