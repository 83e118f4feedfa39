import jop.Io;

/** Words told apart by their length and their characters. */
public class Words {
    private static final String[] WORDS = {"stop", "start", "", "stow", "\u20ac"};

    private static boolean same(String one, String other) {
        if (one.length() != other.length()) {
            return false;
        }
        for (int i = 0; i < one.length(); i++) {
            if (one.charAt(i) != other.charAt(i)) {
                return false;
            }
        }
        return true;
    }

    private static int meaning(String word) {
        switch (word.length()) {
            case 0:
                return 'z';
            case 1:
                return word.charAt(0) == 0x20ac ? 'e' : '1';
            case 4:
                if (same(word, "stop")) {
                    return 's';
                }
                return 'w';
            default:
                return same(word, "start") ? 'g' : '?';
        }
    }

    public static void main(String[] arguments) {
        for (int i = 0; i < WORDS.length; i++) {
            Io.write(meaning(WORDS[i]));
        }
        try {
            Io.write("abc".charAt(3));
        } catch (IndexOutOfBoundsException fault) {
            Io.write('x');
        }
        Io.write(arguments.length);
    }
}
