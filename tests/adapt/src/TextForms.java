import java.util.ArrayList;
import java.util.Arrays;

/** Strings that are formed, split, joined and replaced. */
public class TextForms {
    private static void formats() {
        System.out.println(String.format("%d|%5d|%-5d|%05d|%d", 42, -42, 42, -42, 1L << 40));
        System.out.println(String.format("%s|%6s|%-6s|%.2s|%s|%b|%b|%b", "text", "ab", "ab", "abcd", null, true, null, "x"));
        System.out.println(String.format("%x|%X|%08x|%x|%x|%x", 255, -1, 48879, 255L, (byte) -1, (short) -2));
        System.out.println(String.format("%c|%3c|%c|%%|%5%|%n%d", 'x', 'y', 66, (byte) 7));
        System.out.printf("%s and %d%n", new ArrayList<>(Arrays.asList(1, 2)), 3);
        System.out.format("%-4s|%4s|%n", true, 'c');
        for (String wrong : new String[] {"%d", "%", "%-d", "%5", "%--5d"}) {
            try {
                System.out.println(String.format(wrong));
            } catch (IllegalArgumentException raised) {
                System.out.println("wrong " + wrong);
            }
        }
        try {
            System.out.println(String.format("%d", "text"));
        } catch (IllegalArgumentException raised) {
            System.out.println("no number");
        }
    }

    private static void splits(String text, String pattern) {
        System.out.println(Arrays.toString(text.split(pattern)) + Arrays.toString(text.split(pattern, 2)) + Arrays.toString(text.split(pattern, -1)));
        System.out.println(text.replaceAll(pattern, "<>") + " " + text.replaceFirst(pattern, "\\$") + " " + text.matches(pattern));
    }

    private static void others(String text) {
        System.out.println(text.replace("ab", "-") + text.replace("", ".") + text.replace(text, "x") + text.replace("aa", "a"));
        System.out.println(String.join(", ", "a", text, null) + String.join("", new ArrayList<String>()) + String.join("+", Arrays.asList("x", "y")));
        System.out.println(text.compareToIgnoreCase("ABAB") + " " + text.regionMatches(true, 0, "AB", 0, 2) + " " + text.regionMatches(false, 0, "AB", 0, 2));
    }

    /** Each char below 256, small, as a capital, and with its neighbours. */
    private static void cases() {
        for (char each = 0; each < 256; each++) {
            String text = "s" + each + (char) (each ^ 32);
            String great = text.toUpperCase();
            String small = text.toLowerCase();
            System.out.print(great.length() + "," + (int) great.charAt(1) + "," + (int) small.charAt(1) + "," + great.hashCode() + small.hashCode()
                + text.substring(1, 2).equalsIgnoreCase(text.substring(2)) + ";");
        }
        System.out.println();
    }

    public static void main(String[] arguments) {
        formats();
        cases();
        for (String text : new String[] {"", "a,b,,c,,", ",a", "a b\t c", "12,x3", "a.b.c", "[x]"}) {
            for (String pattern : new String[] {",", "\\s+", "[,.]", "\\.", ",\\s*", "[0-9]+", "[^a-z]", "\\w+", "\\D", ".", "[a-c_]x?", "\\[x\\]"}) {
                splits(text, pattern);
            }
        }
        for (String text : new String[] {"", "abab", "aab", "aaa", "xABx", "Abac"}) {
            others(text);
        }
        System.out.println("a\ud83d\ude00".codePointAt(1) + " " + "a\ud83d".codePointAt(1) + " " + "ab".codePointAt(0));
        int names = 0;
        for (char each = 0; each < 256; each++) {
            names = 31 * names + (Character.isJavaIdentifierStart(each) ? 1 : 0) + (Character.isJavaIdentifierPart(each) ? 2 : 0);
            names = 31 * names + (Character.isJavaIdentifierStart((int) each) ? 1 : 0) + (Character.isJavaIdentifierPart((int) each) ? 2 : 0)
                + (Character.isIdentifierIgnorable((int) each) ? 4 : 0);
        }
        System.out.println(names);
        System.out.println(System.getProperty("line.separator").length() + System.lineSeparator() + System.getProperty("my.own") + System.getProperty("my.own", "other"));
    }
}
