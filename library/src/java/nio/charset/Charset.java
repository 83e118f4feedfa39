package java.nio.charset;

import jop.HashCodeMethod;
import jop.Strings;
import jop.Text;
import jop.ToTextMethod;

/** How chars are bytes: US-ASCII, ISO-8859-1 or UTF-8. */
public final class Charset implements Comparable<Charset>, HashCodeMethod, ToTextMethod {
    private final String name;

    Charset(String name) {
        this.name = name;
    }

    /** That of `System.out`: ISO-8859-1. */
    public static Charset defaultCharset() {
        return StandardCharsets.ISO_8859_1;
    }

    /** The one of a name. Raises UnsupportedCharsetException for any other. */
    public static Charset forName(String name) {
        Charset found = find(name);
        if (found == null) {
            throw new UnsupportedCharsetException(name);
        }
        return found;
    }

    public static boolean isSupported(String name) {
        return find(name) != null;
    }

    private static Charset find(String name) {
        if (Strings.equalsIgnoreCase(name, "UTF-8") || Strings.equalsIgnoreCase(name, "UTF8")) {
            return StandardCharsets.UTF_8;
        }
        if (Strings.equalsIgnoreCase(name, "US-ASCII") || Strings.equalsIgnoreCase(name, "ASCII")) {
            return StandardCharsets.US_ASCII;
        }
        boolean isLatin = Strings.equalsIgnoreCase(name, "ISO-8859-1") || Strings.equalsIgnoreCase(name, "ISO8859_1");
        return isLatin || Strings.equalsIgnoreCase(name, "latin1") ? StandardCharsets.ISO_8859_1 : null;
    }

    public String name() {
        return name;
    }

    @Override
    public int compareTo(Charset other) {
        return Strings.compareTo(name, other.name);
    }

    @Override
    public int hashCode() {
        return Strings.hashCode(name);
    }

    @Override
    public Text toText() {
        return Text.of(name);
    }
}
