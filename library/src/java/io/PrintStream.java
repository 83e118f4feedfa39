package java.io;

import jop.Digits;
import jop.Io;
import jop.Text;

/** Standard output, by jop.Io: a char is a byte of ISO 8859-1, one past 255 a question mark. */
public class PrintStream extends OutputStream {
    @Override
    public void write(int value) {
        Io.write(value);
    }

    @Override
    public void write(byte[] bytes, int first, int count) {
        if ((first | count) < 0 || count > bytes.length - first) {
            throw new IndexOutOfBoundsException();
        }
        for (int i = 0; i < count; i++) { //@WCA loop=64 elements
            Io.write(bytes[first + i]);
        }
    }

    /** Nothing: each byte is put at once. */
    @Override
    public void flush() {
    }

    @Override
    public void close() {
    }

    public boolean checkError() {
        return false;
    }

    public void print(char value) {
        Io.write(value < 256 ? value : '?');
    }

    public void print(char[] chars) {
        for (int i = 0; i < chars.length; i++) { //@WCA loop=64 elements
            print(chars[i]);
        }
    }

    private void printDigits(char[] digits, int first) {
        for (int i = first; i < digits.length; i++) { //@WCA loop=20
            Io.write(digits[i]);
        }
    }

    public void print(int value) {
        char[] digits = new char[11];
        printDigits(digits, Digits.decimal(value, digits, 11));
    }

    public void print(long value) {
        char[] digits = new char[20];
        printDigits(digits, Digits.decimal(value, digits, 20));
    }

    public void print(boolean value) {
        print(value ? "true" : "false");
    }

    /** Puts a String's chars, `null` for null. */
    public void print(String string) {
        String put = string == null ? "null" : string;
        int length = put.length();
        for (int i = 0; i < length; i++) { //@WCA loop=64 elements
            print(put.charAt(i));
        }
    }

    /** Puts a text's chars, `null` for null. */
    public void print(Text text) {
        Text put = text == null ? Text.of("null") : text;
        int length = put.length();
        for (int i = 0; i < length; i++) { //@WCA loop=64 elements
            print(put.charAt(i));
        }
    }

    public void print(Object object) {
        print(Text.valueOf(object));
    }

    public void println() {
        Io.write('\n');
    }

    public void println(char value) {
        print(value);
        println();
    }

    public void println(char[] chars) {
        print(chars);
        println();
    }

    public void println(int value) {
        print(value);
        println();
    }

    public void println(long value) {
        print(value);
        println();
    }

    public void println(boolean value) {
        print(value);
        println();
    }

    public void println(String string) {
        print(string);
        println();
    }

    public void println(Text text) {
        print(text);
        println();
    }

    public void println(Object object) {
        print(object);
        println();
    }

    public PrintStream append(char value) {
        print(value);
        return this;
    }

    /** Prints what `String.format` makes. */
    public PrintStream printf(String pattern, Object... values) {
        return printf(Text.of(pattern), values);
    }

    public PrintStream printf(Text pattern, Object... values) {
        print(Text.format(pattern, values));
        return this;
    }

    public PrintStream format(String pattern, Object... values) {
        return printf(Text.of(pattern), values);
    }

    public PrintStream format(Text pattern, Object... values) {
        return printf(pattern, values);
    }
}
