/** Methods of String, on literals and on strings that were made. */
public class StringMethods {
    static void tell(String text) {
        System.out.println("[" + text + "] " + text.length() + " " + text.hashCode());
    }

    static int words(String text) {
        int count = 0;
        for (int from = 0; from < text.length();) {
            int to = text.indexOf(' ', from);
            to = to < 0 ? text.length() : to;
            count += to > from ? 1 : 0;
            from = to + 1;
        }
        return count;
    }

    static boolean isPalindrome(String text) {
        return new StringBuilder(text).reverse().toString().equals(text);
    }

    public static void main(String[] args) {
        String text = "the quick brown fox";
        tell(text.substring(4));
        tell(text.substring(4, 9));
        tell(text.substring(4, 4));
        tell(text.concat("!"));
        tell("  \t padded \n".trim());
        tell(text.replace('o', '0'));
        tell(String.valueOf(-77) + String.valueOf('c') + String.valueOf(true) + String.valueOf(1L << 33));
        tell(String.valueOf(new char[] {'a', 'b'}));
        tell("MiXed".toLowerCase() + "MiXed".toUpperCase(java.util.Locale.ENGLISH));
        tell(new String());
        System.out.println(text.indexOf("brown") + " " + text.indexOf('z') + " " + text.lastIndexOf('o') + " " + text.indexOf("o", 13));
        System.out.println(text.startsWith("the") + " " + text.endsWith("fox") + " " + text.startsWith("quick", 4) + text.contains("row"));
        System.out.println("abc".compareTo("abd") + " " + "abc".compareTo("ab") + " " + "b".compareTo("abc") + " " + "x".compareTo("x"));
        System.out.println("Abc".equals("abc") + " " + "Abc".equalsIgnoreCase("aBC") + " " + text.equals(null) + "".isEmpty());
        System.out.println(words(text) + " " + words("") + " " + words("  a  b "));
        System.out.println(isPalindrome("abcba") + " " + isPalindrome("abc" + "ab"));
        char[] chars = text.toCharArray();
        chars[0] = 'T';
        System.out.println(new String(chars, 0, 9) + text.charAt(0));
        String one = "lit" + "eral";
        System.out.println(one == "literal" ? "same" : "other");
        try {
            text.substring(5, 40);
        } catch (IndexOutOfBoundsException e) {
            System.out.println("outside");
        }
    }
}
