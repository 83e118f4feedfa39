package jop;

import java.io.Serializable;
import java.io.UnsupportedEncodingException;
import java.nio.charset.Charset;
import java.util.Iterator;

/** Chars that can be put together at run time, with the methods of String under their names. */
public final class Text implements Serializable, CharSequence, Comparable<Text>, EqualsMethod, HashCodeMethod, ToTextMethod {
    /** The String that it was made of, if any: the chars are then taken from there when they are needed at once. */
    private final String literal;
    private char[] chars;

    /** No chars. */
    public Text() {
        literal = null;
        chars = new char[0];
    }

    /** The same chars. */
    public Text(Text text) {
        literal = text.literal;
        chars = text.chars;
    }

    /** A copy of all chars. */
    public Text(char[] chars) {
        this(chars, 0, chars.length);
    }

    /** A copy of some chars. */
    public Text(char[] chars, int first, int count) {
        if ((first | count) < 0 || count > chars.length - first) {
            throw new StringIndexOutOfBoundsException();
        }
        literal = null;
        this.chars = new char[count];
        Copies.copy(chars, first, this.chars, 0, count);
    }

    /** The chars of bytes, in the default charset. */
    public Text(byte[] bytes) {
        this(bytes, 0, bytes.length);
    }

    public Text(byte[] bytes, int first, int count) {
        this(bytes, first, count, Charset.defaultCharset());
    }

    public Text(byte[] bytes, Charset charset) {
        this(bytes, 0, bytes.length, charset);
    }

    public Text(byte[] bytes, int first, int count, Charset charset) {
        this(null, Encodings.decode(bytes, first, count, charset));
    }

    public Text(byte[] bytes, Text charset) throws UnsupportedEncodingException {
        this(bytes, 0, bytes.length, charset);
    }

    public Text(byte[] bytes, int first, int count, Text charset) throws UnsupportedEncodingException {
        this(bytes, first, count, named(charset));
    }

    private Text(String literal, char[] chars) {
        this.literal = literal;
        this.chars = chars;
    }

    /** The text of a String, null for null. */
    public static Text of(String literal) {
        return literal == null ? null : new Text(literal, null);
    }

    /** The String that it was made of, null where it was put together at run time. */
    public String literal() {
        return literal;
    }

    /** A text of chars that nobody else writes into. */
    static Text owning(char[] chars) {
        return new Text(null, chars);
    }

    private static Charset named(Text name) throws UnsupportedEncodingException {
        Charset found = CharsetNames.find(name);
        if (found == null) {
            throw new UnsupportedEncodingException();
        }
        return found;
    }

    /** The bytes in the default charset. */
    public byte[] getBytes() {
        return getBytes(Charset.defaultCharset());
    }

    public byte[] getBytes(Charset charset) {
        return Encodings.encode(chars(), charset);
    }

    public byte[] getBytes(Text charset) throws UnsupportedEncodingException {
        return getBytes(named(charset));
    }

    /** The chars of a sequence, `null` for null; nobody may write into them. */
    public static char[] toChars(CharSequence sequence) {
        return (sequence == null ? of("null") : copyOf(sequence)).chars();
    }

    public static Text valueOf(boolean value) {
        return of(value ? "true" : "false");
    }

    public static Text valueOf(char value) {
        return new Text(null, new char[] {value});
    }

    public static Text valueOf(int value) {
        char[] digits = new char[11];
        return ofDigits(digits, Digits.decimal(value, digits, 11));
    }

    public static Text valueOf(long value) {
        char[] digits = new char[20];
        return ofDigits(digits, Digits.decimal(value, digits, 20));
    }

    private static Text ofDigits(char[] digits, int first) {
        char[] chars = new char[digits.length - first];
        for (int i = 0; i < chars.length; i++) { //@WCA loop=20
            chars[i] = digits[first + i];
        }
        return new Text(null, chars);
    }

    public static Text valueOf(char[] chars) {
        return new Text(chars);
    }

    public static Text valueOf(char[] chars, int first, int count) {
        return new Text(chars, first, count);
    }

    public static Text copyValueOf(char[] chars) {
        return new Text(chars);
    }

    /** What toText makes of the object, `null` for null. */
    public static Text valueOf(Object object) {
        return object == null ? of("null") : Objects.toText(object);
    }

    /** All chars; nobody else may write into them. */
    private char[] chars() {
        if (chars == null) {
            chars = Strings.toCharArray(literal);
        }
        return chars;
    }

    @Override
    public int length() {
        return chars == null ? literal.length() : chars.length;
    }

    /** Raises ArrayIndexOutOfBoundsException for an index outside, as the machine's String does. */
    @Override
    public char charAt(int index) {
        return chars == null ? literal.charAt(index) : chars[index];
    }

    public boolean isEmpty() {
        return length() == 0;
    }

    /** Whether the other object is a text, or a String, with the same chars. */
    @Override
    public boolean equals(Object other) {
        if (this == other) {
            return true;
        }
        if (other instanceof String) {
            other = of((String) other);
        }
        return other instanceof Text && sameChars(chars(), ((Text) other).chars());
    }

    private static boolean sameChars(char[] first, char[] second) {
        return first.length == second.length && sameChars(first, 0, second, 0, first.length);
    }

    /** Whether so many chars from two places on, of which none lies outside, are the same. */
    private static boolean sameChars(char[] first, int place, char[] second, int start, int count) {
        for (int i = 0; i < count; i++) { //@WCA loop=64 elements
            if (first[place + i] != second[start + i]) {
                return false;
            }
        }
        return true;
    }

    /** Equality without regard to the case of letters below 256. */
    public boolean equalsIgnoreCase(Text other) {
        return other != null && sameChars(lowered(chars()), lowered(other.chars()));
    }

    public boolean contentEquals(CharSequence other) {
        char[] mine = chars();
        if (mine.length != other.length()) {
            return false;
        }
        for (int i = 0; i < mine.length; i++) { //@WCA loop=64 elements
            if (mine[i] != other.charAt(i)) {
                return false;
            }
        }
        return true;
    }

    @Override
    public int hashCode() {
        char[] mine = chars();
        int hash = 0;
        for (int i = 0; i < mine.length; i++) { //@WCA loop=64 elements
            hash = 31 * hash + mine[i];
        }
        return hash;
    }

    @Override
    public int compareTo(Text other) {
        char[] mine = chars();
        char[] others = other.chars();
        int count = mine.length < others.length ? mine.length : others.length;
        for (int i = 0; i < count; i++) { //@WCA loop=64 elements
            if (mine[i] != others[i]) {
                return mine[i] - others[i];
            }
        }
        return mine.length - others.length;
    }

    public int indexOf(int point) {
        return indexOf(point, 0);
    }

    /** The first place from one on at which a char, or a pair of surrogates, stands; -1 where there is none. */
    public int indexOf(int point, int from) {
        if (point >= 0x10000) {
            return point > 0x10ffff ? -1 : indexOf(pair(point), from);
        }
        char[] mine = chars();
        for (int i = from < 0 ? 0 : from; i < mine.length; i++) { //@WCA loop=64 elements
            if (mine[i] == point) {
                return i;
            }
        }
        return -1;
    }

    public int indexOf(Text part) {
        return indexOf(part, 0);
    }

    /** The first place from one on at which a part stands; -1 where there is none. */
    public int indexOf(Text part, int from) {
        char[] mine = chars();
        char[] others = part.chars();
        int first = from < 0 ? 0 : from > mine.length ? mine.length : from;
        for (int i = first; i <= mine.length - others.length; i++) { //@WCA loop=64 elements
            if (sameChars(mine, i, others, 0, others.length)) {
                return i;
            }
        }
        return -1;
    }

    public int lastIndexOf(int point) {
        return lastIndexOf(point, length() - 1);
    }

    /** The last place up to one at which a char, or a pair of surrogates, stands; -1 where there is none. */
    public int lastIndexOf(int point, int from) {
        if (point >= 0x10000) {
            return point > 0x10ffff ? -1 : lastIndexOf(pair(point), from);
        }
        char[] mine = chars();
        for (int i = from < mine.length ? from : mine.length - 1; i >= 0; i--) { //@WCA loop=64 elements
            if (mine[i] == point) {
                return i;
            }
        }
        return -1;
    }

    public int lastIndexOf(Text part) {
        return lastIndexOf(part, length());
    }

    /** The last place up to one at which a part stands; -1 where there is none. */
    public int lastIndexOf(Text part, int from) {
        char[] mine = chars();
        char[] others = part.chars();
        int last = mine.length - others.length;
        for (int i = from < last ? from : last; i >= 0; i--) { //@WCA loop=64 elements
            if (sameChars(mine, i, others, 0, others.length)) {
                return i;
            }
        }
        return -1;
    }

    /** The surrogates of a code point past 65,535. */
    private static Text pair(int point) {
        int offset = point - 0x10000;
        return new Text(null, new char[] {(char) (0xd800 + (offset >>> 10)), (char) (0xdc00 + (offset & 0x3ff))});
    }

    public boolean startsWith(Text part) {
        return startsWith(part, 0);
    }

    /** Whether the part stands at a place. */
    public boolean startsWith(Text part, int place) {
        return regionMatches(place, part, 0, part.length());
    }

    public boolean endsWith(Text part) {
        return startsWith(part, length() - part.length());
    }

    public boolean contains(CharSequence part) {
        return indexOf(copyOf(part)) >= 0;
    }

    private static Text copyOf(CharSequence sequence) {
        if (sequence instanceof Text) {
            return (Text) sequence;
        }
        char[] copy = new char[sequence.length()];
        for (int i = 0; i < copy.length; i++) { //@WCA loop=64 elements
            copy[i] = sequence.charAt(i);
        }
        return new Text(null, copy);
    }

    public boolean regionMatches(int place, Text other, int start, int count) {
        char[] mine = chars();
        char[] others = other.chars();
        if ((place | start) < 0 || count > mine.length - place || count > others.length - start) {
            return false;
        }
        return sameChars(mine, place, others, start, count);
    }

    public char[] toCharArray() {
        char[] copy = new char[length()];
        Copies.copy(chars(), 0, copy, 0, copy.length);
        return copy;
    }

    /** Copies the chars from a place up to another one. */
    public void getChars(int first, int end, char[] to, int start) {
        checkRange(first, end);
        Copies.copy(chars(), first, to, start, end - first);
    }

    private void checkRange(int first, int end) {
        if (first < 0 || end > length() || first > end) {
            throw new StringIndexOutOfBoundsException();
        }
    }

    public Text substring(int first) {
        return substring(first, length());
    }

    public Text substring(int first, int end) {
        checkRange(first, end);
        if (end - first == length()) {
            return this;
        }
        return new Text(chars(), first, end - first);
    }

    @Override
    public CharSequence subSequence(int first, int end) {
        return substring(first, end);
    }

    public Text concat(Text other) {
        if (other.length() == 0) {
            return this;
        }
        char[] mine = chars();
        char[] others = other.chars();
        char[] all = new char[mine.length + others.length];
        Copies.copy(mine, 0, all, 0, mine.length);
        Copies.copy(others, 0, all, mine.length, others.length);
        return new Text(null, all);
    }

    public Text replace(char old, char other) {
        char[] copy = toCharArray();
        for (int i = 0; i < copy.length; i++) { //@WCA loop=64 elements
            if (copy[i] == old) {
                copy[i] = other;
            }
        }
        return new Text(null, copy);
    }

    /** Each part, from the front on, in another one's place. */
    public Text replace(CharSequence part, CharSequence other) {
        char[] mine = chars();
        char[] old = copyOf(part).chars();
        char[] by = copyOf(other).chars();
        StringBuilder made = new StringBuilder();
        int place = 0;
        while (place < mine.length) { //@WCA loop=64 elements
            boolean isThere = old.length <= mine.length - place && sameChars(mine, place, old, 0, old.length);
            if (isThere) {
                made.append(by);
            }
            if (!isThere || old.length == 0) {
                made.append(mine[place]);
            }
            place += isThere && old.length > 0 ? old.length : 1;
        }
        if (old.length == 0) {
            made.append(by);
        }
        return made.toText();
    }

    /** The parts with another text between each two. */
    public static Text join(CharSequence between, CharSequence... parts) {
        StringBuilder made = new StringBuilder();
        char[] chars = copyOf(between).chars();
        for (int i = 0; i < parts.length; i++) { //@WCA loop=64 elements
            if (i > 0) {
                made.append(chars);
            }
            made.append(toChars(parts[i]));
        }
        return made.toText();
    }

    public static Text join(CharSequence between, Iterable<? extends CharSequence> parts) {
        StringBuilder made = new StringBuilder();
        char[] chars = copyOf(between).chars();
        Iterator<? extends CharSequence> each = parts.iterator();
        boolean isFirst = true;
        while (each.hasNext()) { //@WCA loop=64 elements
            if (!isFirst) {
                made.append(chars);
            }
            made.append(toChars(each.next()));
            isFirst = false;
        }
        return made.toText();
    }

    /** As `java.util.Formatter` says, of `%d %s %x %X %c %b %n %%` with a width, `-` and `0`. */
    public static Text format(Text pattern, Object... values) {
        return Formats.format(pattern.chars(), values);
    }

    /** Whether all of it fits a pattern, as `Patterns` knows them. */
    public boolean matches(Text pattern) {
        return new Patterns(pattern.chars()).end(chars(), 0) == length();
    }

    public Text replaceAll(Text pattern, Text by) {
        return new Patterns(pattern.chars()).replace(chars(), by.chars(), Integer.MAX_VALUE);
    }

    public Text replaceFirst(Text pattern, Text by) {
        return new Patterns(pattern.chars()).replace(chars(), by.chars(), 1);
    }

    /** The parts between what fits a pattern, without empty ones at the end. */
    public Text[] split(Text pattern) {
        return split(pattern, 0);
    }

    /** At most so many parts; all where the number isn't positive, and without empty ones at the end where it is 0. */
    public Text[] split(Text pattern, int limit) {
        return new Patterns(pattern.chars()).split(this, chars(), limit);
    }

    /** The code point at a place: a pair of surrogates, or a char. */
    public int codePointAt(int place) {
        char high = charAt(place);
        if (!Character.isHighSurrogate(high) || place + 1 >= length() || !Character.isLowSurrogate(charAt(place + 1))) {
            return high;
        }
        return Character.toCodePoint(high, charAt(place + 1));
    }

    /** The order without regard to the case of letters below 128. */
    public int compareToIgnoreCase(Text other) {
        return toLowerCase().compareTo(other.toLowerCase());
    }

    public boolean regionMatches(boolean isAnyCase, int place, Text other, int start, int count) {
        return isAnyCase ? toLowerCase().regionMatches(place, other.toLowerCase(), start, count) : regionMatches(place, other, start, count);
    }

    /** Without the chars up to the blank at both ends. */
    public Text trim() {
        char[] mine = chars();
        int first = 0;
        int end = mine.length;
        while (first < end && mine[first] <= ' ') { //@WCA loop=64 elements
            first++;
        }
        while (first < end && mine[end - 1] <= ' ') { //@WCA loop=64 elements
            end--;
        }
        return substring(first, end);
    }

    /** The letters below 256 as small ones; other chars stay. */
    public Text toLowerCase() {
        return new Text(null, lowered(chars()));
    }

    private static char[] lowered(char[] chars) {
        char[] copy = new char[chars.length];
        for (int i = 0; i < copy.length; i++) { //@WCA loop=64 elements
            copy[i] = Character.toLowerCase(chars[i]);
        }
        return copy;
    }

    /** The letters below 256 as capitals, a sharp s as two; other chars stay. */
    public Text toUpperCase() {
        char[] mine = chars();
        char[] copy = new char[mine.length + sharps(mine)];
        int count = 0;
        for (int i = 0; i < mine.length; i++) { //@WCA loop=64 elements
            boolean isSharp = mine[i] == '\u00df';
            copy[count] = isSharp ? 'S' : Character.toUpperCase(mine[i]);
            count++;
            if (isSharp) {
                copy[count] = 'S';
                count++;
            }
        }
        return new Text(null, copy);
    }

    private static int sharps(char[] chars) {
        int count = 0;
        for (int i = 0; i < chars.length; i++) { //@WCA loop=64 elements
            count += chars[i] == '\u00df' ? 1 : 0;
        }
        return count;
    }

    @Override
    public Text toText() {
        return this;
    }
}
