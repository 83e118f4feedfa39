package java.lang;

import java.io.Serializable;
import jop.Copies;
import jop.Digits;
import jop.Text;
import jop.ToTextMethod;

/** Chars that are put together at run time. */
public final class StringBuilder implements CharSequence, Serializable, ToTextMethod {
    private char[] chars;
    private int count;

    /** No chars, and room for 16. */
    public StringBuilder() {
        this(16);
    }

    public StringBuilder(int capacity) {
        chars = new char[capacity];
    }

    public StringBuilder(String string) {
        this(16 + string.length());
        append(string);
    }

    public StringBuilder(Text text) {
        this(16 + text.length());
        append(text);
    }

    public StringBuilder(CharSequence sequence) {
        this(16 + sequence.length());
        append(sequence);
    }

    @Override
    public int length() {
        return count;
    }

    public int capacity() {
        return chars.length;
    }

    /** Makes room for so many chars: twice the old one and two, if that is more. */
    public void ensureCapacity(int least) {
        if (least > chars.length) {
            int twice = 2 * chars.length + 2;
            char[] grown = new char[least > twice ? least : twice];
            Copies.copy(chars, 0, grown, 0, count);
            chars = grown;
        }
    }

    private void checkRange(int first, int end) {
        if (first < 0 || first > end || end > count) {
            throw new StringIndexOutOfBoundsException();
        }
    }

    /** Raises ArrayIndexOutOfBoundsException for an index outside, as the machine's String does. */
    @Override
    public char charAt(int index) {
        return chars[index < count ? index : -1];
    }

    public void setCharAt(int index, char value) {
        chars[index < count ? index : -1] = value;
    }

    /** Cuts chars off, or puts chars 0 behind. */
    public void setLength(int length) {
        if (length < 0) {
            throw new StringIndexOutOfBoundsException();
        }
        ensureCapacity(length);
        for (int i = count; i < length; i++) { //@WCA loop=64 elements
            chars[i] = 0;
        }
        count = length;
    }

    public StringBuilder append(char value) {
        ensureCapacity(count + 1);
        chars[count] = value;
        count++;
        return this;
    }

    public StringBuilder append(int value) {
        char[] digits = new char[11];
        return appendDigits(digits, Digits.decimal(value, digits, 11));
    }

    public StringBuilder append(long value) {
        char[] digits = new char[20];
        return appendDigits(digits, Digits.decimal(value, digits, 20));
    }

    private StringBuilder appendDigits(char[] digits, int first) {
        ensureCapacity(count + digits.length - first);
        for (int i = first; i < digits.length; i++) { //@WCA loop=20
            chars[count] = digits[i];
            count++;
        }
        return this;
    }

    public StringBuilder append(boolean value) {
        return append(value ? "true" : "false");
    }

    public StringBuilder append(char[] added) {
        return append(added, 0, added.length);
    }

    public StringBuilder append(char[] added, int first, int length) {
        if ((first | length) < 0 || length > added.length - first) {
            throw new IndexOutOfBoundsException();
        }
        ensureCapacity(count + length);
        Copies.copy(added, first, chars, count, length);
        count += length;
        return this;
    }

    /** Puts a String's chars behind, `null` for null. */
    public StringBuilder append(String string) {
        String added = string == null ? "null" : string;
        int length = added.length();
        ensureCapacity(count + length);
        for (int i = 0; i < length; i++) { //@WCA loop=64 elements
            chars[count + i] = added.charAt(i);
        }
        count += length;
        return this;
    }

    /** Puts a text's chars behind, `null` for null. */
    public StringBuilder append(Text text) {
        Text added = text == null ? Text.of("null") : text;
        int length = added.length();
        ensureCapacity(count + length);
        added.getChars(0, length, chars, count);
        count += length;
        return this;
    }

    public StringBuilder append(CharSequence sequence) {
        return sequence == null ? append("null") : append(sequence, 0, sequence.length());
    }

    /** Puts the chars of a sequence from a place up to another one behind, those of `null` for null. */
    public StringBuilder append(CharSequence sequence, int first, int end) {
        CharSequence added = sequence == null ? Text.of("null") : sequence;
        if (first < 0 || first > end || end > added.length()) {
            throw new IndexOutOfBoundsException();
        }
        ensureCapacity(count + end - first);
        for (int i = first; i < end; i++) { //@WCA loop=64 elements
            chars[count] = added.charAt(i);
            count++;
        }
        return this;
    }

    public StringBuilder append(Object object) {
        return append(Text.valueOf(object));
    }

    public StringBuilder appendCodePoint(int point) {
        if (point < 0 || point > Character.MAX_CODE_POINT) {
            throw new IllegalArgumentException();
        }
        if (point < Character.MIN_SUPPLEMENTARY_CODE_POINT) {
            return append((char) point);
        }
        int offset = point - Character.MIN_SUPPLEMENTARY_CODE_POINT;
        append((char) (Character.MIN_HIGH_SURROGATE + (offset >>> 10)));
        return append((char) (Character.MIN_LOW_SURROGATE + (offset & 0x3ff)));
    }

    public StringBuilder insert(int place, char value) {
        return insert(place, new char[] {value}, 0, 1);
    }

    public StringBuilder insert(int place, int value) {
        return insert(place, Text.valueOf(value));
    }

    public StringBuilder insert(int place, long value) {
        return insert(place, Text.valueOf(value));
    }

    public StringBuilder insert(int place, boolean value) {
        return insert(place, Text.valueOf(value));
    }

    public StringBuilder insert(int place, String string) {
        return insert(place, Text.of(string));
    }

    public StringBuilder insert(int place, char[] added) {
        return insert(place, added, 0, added.length);
    }

    public StringBuilder insert(int place, Object object) {
        return insert(place, Text.valueOf(object));
    }

    /** Puts a text's chars before those from a place on, `null` for null. */
    public StringBuilder insert(int place, Text text) {
        Text added = text == null ? Text.of("null") : text;
        int length = added.length();
        open(place, length);
        added.getChars(0, length, chars, place);
        return this;
    }

    /** Puts some chars of an array before those from a place on. */
    public StringBuilder insert(int place, char[] added, int first, int length) {
        if ((first | length) < 0 || length > added.length - first) {
            throw new StringIndexOutOfBoundsException();
        }
        open(place, length);
        Copies.copy(added, first, chars, place, length);
        return this;
    }

    /** Moves the chars from a place on back by so many. */
    private void open(int place, int length) {
        if (place < 0 || place > count) {
            throw new StringIndexOutOfBoundsException();
        }
        ensureCapacity(count + length);
        Copies.copy(chars, place, chars, place + length, count - place);
        count += length;
    }

    /** Takes the chars from a place up to another one, or to the end, away. */
    public StringBuilder delete(int first, int end) {
        int last = end > count ? count : end;
        checkRange(first, last);
        Copies.copy(chars, last, chars, first, count - last);
        count -= last - first;
        return this;
    }

    public StringBuilder deleteCharAt(int index) {
        checkRange(index, index + 1);
        return delete(index, index + 1);
    }

    public StringBuilder replace(int first, int end, String string) {
        return replace(first, end, Text.of(string));
    }

    /** Puts a text in place of the chars from a place up to another one, or to the end. */
    public StringBuilder replace(int first, int end, Text text) {
        int last = end > count ? count : end;
        checkRange(first, last);
        delete(first, last);
        return insert(first, text);
    }

    /** Turns the order of the chars; pairs of surrogates stay pairs. */
    public StringBuilder reverse() {
        boolean hasSurrogates = false;
        int last = count - 1;
        for (int i = 0; i <= last - i; i++) { //@WCA loop=64 elements
            char first = chars[i];
            char second = chars[last - i];
            chars[i] = second;
            chars[last - i] = first;
            hasSurrogates |= Character.isSurrogate(first) || Character.isSurrogate(second);
        }
        if (hasSurrogates) {
            turnPairs();
        }
        return this;
    }

    private void turnPairs() {
        for (int i = 0; i < count - 1; i++) { //@WCA loop=64 elements
            char first = chars[i];
            char second = chars[i + 1];
            if (Character.isLowSurrogate(first) && Character.isHighSurrogate(second)) {
                chars[i] = second;
                i++;
                chars[i] = first;
            }
        }
    }

    public int indexOf(String part) {
        return toText().indexOf(Text.of(part));
    }

    public int indexOf(Text part) {
        return toText().indexOf(part);
    }

    public int lastIndexOf(String part) {
        return toText().lastIndexOf(Text.of(part));
    }

    public int lastIndexOf(Text part) {
        return toText().lastIndexOf(part);
    }

    /** Copies the chars from a place up to another one. */
    public void getChars(int first, int end, char[] to, int start) {
        checkRange(first, end);
        Copies.copy(chars, first, to, start, end - first);
    }

    public Text substring(int first) {
        return substring(first, count);
    }

    public Text substring(int first, int end) {
        checkRange(first, end);
        return new Text(chars, first, end - first);
    }

    @Override
    public CharSequence subSequence(int first, int end) {
        return substring(first, end);
    }

    @Override
    public Text toText() {
        return new Text(chars, 0, count);
    }
}
