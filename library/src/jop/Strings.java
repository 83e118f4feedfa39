package jop;

/** The methods of String that the machine's String lacks, of a String as first argument. What they make is a Text. */
public final class Strings {
    private Strings() {
    }

    /** Whether the other object is a String, or a Text, with the same chars. */
    public static boolean equals(String string, Object other) {
        if (other instanceof Text) {
            return Text.of(string).equals(other);
        }
        int length = string.length();
        if (string == other) {
            return true;
        }
        if (!(other instanceof String) || ((String) other).length() != length) {
            return false;
        }
        return regionMatches(string, 0, (String) other);
    }

    /** Whether the part, of which no char lies outside, stands at a place. */
    private static boolean regionMatches(String string, int place, String part) {
        int length = part.length();
        for (int i = 0; i < length; i++) { //@WCA loop=64 elements
            if (string.charAt(place + i) != part.charAt(i)) {
                return false;
            }
        }
        return true;
    }

    /** Equality without regard to the case of letters below 128. */
    public static boolean equalsIgnoreCase(String string, String other) {
        return Text.of(string).equalsIgnoreCase(Text.of(other));
    }

    public static int hashCode(String string) {
        int length = string.length();
        int hash = 0;
        for (int i = 0; i < length; i++) { //@WCA loop=64 elements
            hash = 31 * hash + string.charAt(i);
        }
        return hash;
    }

    public static int compareTo(String string, String other) {
        int length = string.length();
        int otherLength = other.length();
        int count = length < otherLength ? length : otherLength;
        for (int i = 0; i < count; i++) { //@WCA loop=64 elements
            int difference = string.charAt(i) - other.charAt(i);
            if (difference != 0) {
                return difference;
            }
        }
        return length - otherLength;
    }

    public static boolean isEmpty(String string) {
        return string.length() == 0;
    }

    public static int indexOf(String string, int point) {
        return Text.of(string).indexOf(point);
    }

    public static int indexOf(String string, int point, int from) {
        return Text.of(string).indexOf(point, from);
    }

    public static int indexOf(String string, String part) {
        return Text.of(string).indexOf(Text.of(part));
    }

    public static int indexOf(String string, String part, int from) {
        return Text.of(string).indexOf(Text.of(part), from);
    }

    public static int lastIndexOf(String string, int point) {
        return Text.of(string).lastIndexOf(point);
    }

    public static int lastIndexOf(String string, String part) {
        return Text.of(string).lastIndexOf(Text.of(part));
    }

    public static boolean startsWith(String string, String part) {
        return startsWith(string, part, 0);
    }

    /** Whether the part stands at a place. */
    public static boolean startsWith(String string, String part, int place) {
        if (place < 0 || part.length() > string.length() - place) {
            return false;
        }
        return regionMatches(string, place, part);
    }

    public static boolean endsWith(String string, String part) {
        return startsWith(string, part, string.length() - part.length());
    }

    public static boolean contains(String string, String part) {
        return indexOf(string, part) >= 0;
    }

    public static char[] toCharArray(String string) {
        char[] chars = new char[string.length()];
        for (int i = 0; i < chars.length; i++) { //@WCA loop=64 elements
            chars[i] = string.charAt(i);
        }
        return chars;
    }

    /** Copies the chars from a place up to another one. */
    public static void getChars(String string, int first, int end, char[] to, int start) {
        Text.of(string).getChars(first, end, to, start);
    }

    public static Text substring(String string, int first) {
        return Text.of(string).substring(first);
    }

    public static Text substring(String string, int first, int end) {
        return Text.of(string).substring(first, end);
    }

    public static Text concat(String string, String other) {
        return Text.of(string).concat(Text.of(other));
    }

    public static Text replace(String string, char old, char other) {
        return Text.of(string).replace(old, other);
    }

    public static Text trim(String string) {
        return Text.of(string).trim();
    }

    public static String valueOf(boolean value) {
        return value ? "true" : "false";
    }
}
