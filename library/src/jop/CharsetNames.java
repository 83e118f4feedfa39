package jop;

import java.nio.charset.Charset;
import java.nio.charset.StandardCharsets;

/** The charset of a name that is a text. */
final class CharsetNames {
    private CharsetNames() {
    }

    /** That one; null where there is none. */
    static Charset find(Text name) {
        if (is(name, "UTF-8") || is(name, "UTF8")) {
            return StandardCharsets.UTF_8;
        }
        if (is(name, "US-ASCII") || is(name, "ASCII")) {
            return StandardCharsets.US_ASCII;
        }
        return is(name, "ISO-8859-1") || is(name, "ISO8859_1") || is(name, "latin1") ? StandardCharsets.ISO_8859_1 : null;
    }

    private static boolean is(Text name, String other) {
        return name.equalsIgnoreCase(Text.of(other));
    }
}
