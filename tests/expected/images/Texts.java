public class Texts {
    static final String shared = "both";
    public static void main(String[] args) { jop.Io.write("both".length() + Other.length("own") + Other.length("\u00e9\uffff")); }
}
class Other { final String also = "field"; static int length(String s) { return s.length() + "both".charAt(0) + "other".length(); } }
