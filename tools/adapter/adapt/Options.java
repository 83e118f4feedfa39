package adapt;

import java.nio.file.Path;
import java.util.ArrayList;
import java.util.List;

/** The words of a call: the main class, the folder that is written, the switches, how many elements are promised, and where class files are sought. */
public record Options(String main, Path folder, boolean report, boolean asserts, int methodBytes, int elements, boolean count, Path library,
        List<Path> classPath) {
    /** What the largest memory holds. */
    private static final int MEMORY_WORDS = 1 << 24;
    /** What is said of words that give no call. */
    public static final String USAGE = "adapt MAIN [-o FOLDER] [--report] [--assert] [--elements N] [--method-bytes N] CLASSPATH..";

    /** Reads the words, of which the first one is the folder of the library; null where they give no call. */
    static Options read(String[] words) {
        try {
            return new Reader(words).read();
        } catch (NumberFormatException | ArrayIndexOutOfBoundsException fault) {
            return null;
        }
    }

    /** Takes one word after another. */
    private static final class Reader {
        private final String[] words;
        private int place = 1;
        private String main;
        private Path folder = Path.of("adapted");
        private boolean report;
        private boolean asserts;
        private boolean count;
        private int methodBytes = 4096;
        private int elements = 64;
        private final List<Path> classPath = new ArrayList<>();

        private Reader(String[] words) {
            this.words = words;
        }

        private Options read() {
            while (place < words.length) {
                String word = words[place++];
                switch (word) {
                    case "-o" -> folder = Path.of(words[place++]);
                    case "--method-bytes" -> methodBytes = Integer.parseInt(words[place++]);
                    case "--elements" -> elements = Integer.parseUnsignedInt(words[place++]);
                    case "--report" -> report = true;
                    case "--assert" -> asserts = true;
                    case "--count" -> count = true;
                    default -> operand(word);
                }
            }
            return classPath.isEmpty() || elements < 0 || elements > MEMORY_WORDS || classPath.stream().anyMatch(each -> each.toString().startsWith("--")) ? null
                    : new Options(main, folder, report, asserts, methodBytes, elements, count, Path.of(words[0]), classPath);
        }

        private void operand(String word) {
            if (main == null && !count) {
                main = word.replace('.', '/');
            } else {
                classPath.add(Path.of(word));
            }
        }
    }
}
