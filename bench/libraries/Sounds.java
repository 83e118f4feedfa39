import org.apache.commons.codec.language.RefinedSoundex;
import org.apache.commons.codec.language.Soundex;

/** Codes of how words sound: strings in, strings out. */
public class Sounds {
    static void put(String text) {
        for (int k = 0; k < text.length(); k++) {
            jop.Io.write(text.charAt(k));
        }
        jop.Io.write('\n');
    }

    public static void main(String[] args) {
        Soundex soundex = new Soundex();
        for (String word : new String[] {"Williams", "testing", "Ashcraft", "quick", "brown", "O'Hara"}) {
            put(soundex.soundex(word));
            put(new RefinedSoundex().soundex(word));
        }
    }
}
