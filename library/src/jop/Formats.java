package jop;

/** What `String.format` makes, of `%d %s %x %X %c %b %n %%` with a width, `-`, `0` and, for `%s`, a greatest length. */
final class Formats {
    private final char[] pattern;
    private final Object[] values;
    private final StringBuilder made = new StringBuilder();
    private int place;
    private int used;
    private boolean isLeft;
    private boolean isZero;

    private Formats(char[] pattern, Object[] values) {
        this.pattern = pattern;
        this.values = values;
    }

    /** Raises UnsupportedOperationException for another form, IllegalArgumentException for values that don't fit or lack. */
    static Text format(char[] pattern, Object[] values) {
        Formats formats = new Formats(pattern, values);
        while (formats.place < pattern.length) { //@WCA loop=64 elements
            char each = pattern[formats.place];
            formats.place++;
            if (each == '%') {
                formats.form();
            } else {
                formats.made.append(each);
            }
        }
        return formats.made.toText();
    }

    private void form() {
        flags();
        int width = number();
        int greatest = -1;
        if (peek() == '.') {
            place++;
            greatest = number();
        }
        char kind = peek();
        place++;
        if (kind == 'n') {
            made.append('\n');
        } else {
            pad(kind == '%' ? Text.valueOf('%') : shown(kind, greatest), width, kind);
        }
    }

    private void flags() {
        isLeft = false;
        isZero = false;
        while (peek() == '-' || peek() == '0') { //@WCA loop=2
            if (peek() == '-' ? isLeft : isZero) {
                throw new IllegalArgumentException();
            }
            isLeft |= peek() == '-';
            isZero |= peek() == '0';
            place++;
        }
    }

    /** The char at the place. */
    private char peek() {
        if (place >= pattern.length) {
            throw new IllegalArgumentException();
        }
        return pattern[place];
    }

    /** The number at the place, of at most nine digits; -1 where there is none. */
    private int number() {
        int number = -1;
        int end = place + 9;
        while (place < end && peek() >= '0' && peek() <= '9') { //@WCA loop=9
            number = (number < 0 ? 0 : number) * 10 + peek() - '0';
            place++;
        }
        return number;
    }

    private Object next() {
        if (used >= values.length) {
            throw new IllegalArgumentException();
        }
        used++;
        return values[used - 1];
    }

    private Text shown(char kind, int greatest) {
        if (kind != 'd' && kind != 's' && kind != 'x' && kind != 'X' && kind != 'c' && kind != 'b' || greatest >= 0 && kind != 's') {
            throw new UnsupportedOperationException();
        }
        Object value = next();
        if (kind == 'b') {
            return Text.valueOf(value instanceof Boolean ? ((Boolean) value).booleanValue() : value != null);
        }
        if (value == null) {
            return cut(Text.of("null"), greatest);
        }
        return kind == 's' ? cut(Text.valueOf(value), greatest) : kind == 'c' ? ofChar(value) : kind == 'd' ? decimal(value) : hexadecimal(value, kind);
    }

    private static Text cut(Text text, int greatest) {
        return greatest < 0 || greatest >= text.length() ? text : text.substring(0, greatest);
    }

    private static Text ofChar(Object value) {
        if (value instanceof Character) {
            return Text.valueOf(((Character) value).charValue());
        }
        if (!(value instanceof Integer || value instanceof Short || value instanceof Byte)) {
            throw new IllegalArgumentException();
        }
        int point = ((Number) value).intValue();
        if (point < 0 || point > Character.MAX_CODE_POINT) {
            throw new IllegalArgumentException();
        }
        return new StringBuilder().appendCodePoint(point).toText();
    }

    private static long number(Object value) {
        if (!(value instanceof Integer || value instanceof Long || value instanceof Short || value instanceof Byte)) {
            throw new IllegalArgumentException();
        }
        return ((Number) value).longValue();
    }

    private static Text decimal(Object value) {
        return Text.valueOf(number(value));
    }

    private static Text hexadecimal(Object value, char kind) {
        long number = number(value);
        if (!(value instanceof Long)) {
            number &= value instanceof Integer ? 0xffffffffL : value instanceof Short ? 0xffffL : 0xffL;
        }
        Text digits = Long.toHexString(number);
        return kind == 'X' ? digits.toUpperCase() : digits;
    }

    /** Appends a text with blanks, or zeros behind the sign, up to a width. */
    private void pad(Text text, int width, char kind) {
        boolean isNumber = kind == 'd' || kind == 'x' || kind == 'X';
        if ((isLeft || isZero) && width < 0 || isLeft && isZero || isZero && !isNumber) {
            throw new IllegalArgumentException();
        }
        boolean isNegative = isZero && text.length() > 0 && text.charAt(0) == '-';
        if (isNegative) {
            made.append('-');
        }
        if (!isLeft) {
            fill(width - text.length(), isZero && text.charAt(0) != 'n' ? '0' : ' ');
        }
        made.append(isNegative ? text.substring(1) : text);
        if (isLeft) {
            fill(width - text.length(), ' ');
        }
    }

    private void fill(int count, char by) {
        for (int i = 0; i < count; i++) { //@WCA loop=64 elements
            made.append(by);
        }
    }
}
