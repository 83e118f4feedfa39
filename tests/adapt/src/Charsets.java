import java.io.UnsupportedEncodingException;
import java.nio.charset.Charset;
import java.nio.charset.StandardCharsets;
import java.nio.charset.UnsupportedCharsetException;
import java.util.Arrays;

/** Strings as bytes and back. */
public class Charsets {
    private static final Charset[] ALL = {StandardCharsets.US_ASCII, StandardCharsets.ISO_8859_1, StandardCharsets.UTF_8};
    private static int seed = 1;

    private static int next(int below) {
        seed = seed * 1103515245 + 12345;
        return (seed >>> 16 & 0x7fff) % below;
    }

    private static void tell(String text) {
        int sum = 0;
        for (int k = 0; k < text.length(); k++) {
            sum = 31 * sum + text.charAt(k);
        }
        System.out.println(text.length() + " " + sum);
    }

    private static void encode(String text) {
        for (Charset each : ALL) {
            byte[] bytes = text.getBytes(each);
            System.out.println(each + " " + Arrays.toString(bytes));
            tell(new String(bytes, each));
        }
    }

    private static void decode(byte[] bytes) {
        for (Charset each : ALL) {
            tell(new String(bytes, each));
        }
        tell(new String(bytes, 1, bytes.length - 1, StandardCharsets.UTF_8));
    }

    private static void named(String name) {
        System.out.println(name + " " + Charset.isSupported(name));
        try {
            Charset found = Charset.forName(name);
            System.out.println(found.name() + " " + found.compareTo(StandardCharsets.UTF_8) + " " + found.equals(StandardCharsets.UTF_8));
            System.out.println((found.hashCode() == found.name().hashCode()) + " " + "\u00e9a".getBytes(name).length);
            tell(new String(new byte[] {65, 66, 67}, name));
            tell(new String(new byte[] {65, 66, 67}, 1, 2, name));
        } catch (UnsupportedCharsetException raised) {
            System.out.println("none " + raised.getCharsetName());
        } catch (UnsupportedEncodingException raised) {
            System.out.println("none");
        }
    }

    private static void unsupported() {
        try {
            "a".getBytes("EBCDIC-7");
        } catch (UnsupportedEncodingException raised) {
            System.out.println("no such encoding");
        }
        try {
            new String(new byte[3], 2, 2, StandardCharsets.UTF_8);
        } catch (IndexOutOfBoundsException raised) {
            System.out.println("outside");
        }
        System.out.println(new UnsupportedEncodingException().getMessage() + new UnsupportedEncodingException("none").getMessage());
    }

    public static void main(String[] arguments) {
        String[] texts = {"", "plain", "caf\u00e9", "\u20ac5", "\ud83d\ude00!", "\ud83dx", "\ude00", "a\ud83d", "\u0800\uffff\u07ff\u0080\u007f"};
        for (String text : texts) {
            encode(text);
        }
        int[] leads = {0x41, 0x80, 0xbf, 0xc0, 0xc1, 0xc2, 0xdf, 0xe0, 0xe1, 0xed, 0xef, 0xf0, 0xf1, 0xf4, 0xf5, 0xff, 0x9f, 0xa0, 0x8f, 0x90};
        for (int round = 0; round < 300; round++) {
            byte[] bytes = new byte[1 + next(6)];
            for (int k = 0; k < bytes.length; k++) {
                bytes[k] = (byte) leads[next(leads.length)];
            }
            decode(bytes);
        }
        for (String name : new String[] {"utf-8", "UTF8", "us-ascii", "ISO-8859-1", "latin1", "EBCDIC-7"}) {
            named(name);
        }
        unsupported();
        System.out.println(Charset.defaultCharset() + " " + "\u00e9".getBytes()[0] + " " + new String(new byte[] {-23, 65}).length() + new String(new byte[] {65, 66}, 1, 1));
    }
}
