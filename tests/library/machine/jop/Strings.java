package jop;

/** What a virtual machine does for the library's class of this name. */
public final class Strings {
    public static boolean equals(String string, Object other) {
        return string.equals(other);
    }

    public static boolean equalsIgnoreCase(String string, String other) {
        return string.equalsIgnoreCase(other);
    }

    public static int hashCode(String string) {
        return string.hashCode();
    }

    public static int compareTo(String string, String other) {
        return string.compareTo(other);
    }

    public static boolean isEmpty(String string) {
        return string.isEmpty();
    }

    public static int indexOf(String string, int point) {
        return string.indexOf(point);
    }

    public static int indexOf(String string, int point, int from) {
        return string.indexOf(point, from);
    }

    public static int indexOf(String string, String part) {
        return string.indexOf(part);
    }

    public static int indexOf(String string, String part, int from) {
        return string.indexOf(part, from);
    }

    public static int lastIndexOf(String string, int point) {
        return string.lastIndexOf(point);
    }

    public static int lastIndexOf(String string, String part) {
        return string.lastIndexOf(part);
    }

    public static boolean startsWith(String string, String part) {
        return string.startsWith(part);
    }

    public static boolean startsWith(String string, String part, int place) {
        return string.startsWith(part, place);
    }

    public static boolean endsWith(String string, String part) {
        return string.endsWith(part);
    }

    public static boolean contains(String string, String part) {
        return string.contains(part);
    }

    public static char[] toCharArray(String string) {
        return string.toCharArray();
    }

    public static void getChars(String string, int first, int end, char[] to, int start) {
        string.getChars(first, end, to, start);
    }

    public static String substring(String string, int first) {
        return string.substring(first);
    }

    public static String substring(String string, int first, int end) {
        return string.substring(first, end);
    }

    public static String concat(String string, String other) {
        return string.concat(other);
    }

    public static String replace(String string, char old, char other) {
        return string.replace(old, other);
    }

    public static String trim(String string) {
        return string.trim();
    }

    public static String valueOf(boolean value) {
        return String.valueOf(value);
    }
}
