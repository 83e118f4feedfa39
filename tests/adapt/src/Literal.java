import java.io.Serializable;

/** What a literal stands below, in a program that makes no string. */
public class Literal {
    private static int length(CharSequence chars) {
        return chars.length() + chars.charAt(1);
    }

    public static void main(String[] arguments) {
        Object literal = "abc";
        System.out.println(literal instanceof Serializable);
        System.out.println(literal instanceof CharSequence);
        System.out.println(literal instanceof Comparable);
        System.out.println(length("abcd"));
        Comparable<String> ordered = "abcd";
        System.out.println(ordered.compareTo("abce"));
        CharSequence[] all = {"a", "bc"};
        System.out.println(all[1].length());
        System.out.println(((CharSequence) literal).subSequence(1, 2).length());
    }
}
