package jop;

import java.nio.charset.Charset;
import java.nio.charset.StandardCharsets;

/** Chars as bytes and back (RFC 3629 for UTF-8). */
public final class Encodings {
    private static final char WRONG = '\ufffd';

    private Encodings() {
    }

    /** The bytes of chars; a question mark for what a charset lacks. */
    public static byte[] encode(char[] chars, Charset charset) {
        int greatest = greatest(charset);
        byte[] bytes = new byte[count(chars, greatest)];
        int count = 0;
        int place = 0;
        while (place < chars.length) { //@WCA loop=64 elements
            int point = pointAt(chars, place);
            place += point >= 0x10000 ? 2 : 1;
            count += put(bytes, count, isSurrogate(point) || point > greatest ? '?' : point, greatest);
        }
        return bytes;
    }

    /** The greatest code point of a charset. */
    private static int greatest(Charset charset) {
        if (charset == null) {
            throw new NullPointerException();
        }
        return charset == StandardCharsets.UTF_8 ? 0x10ffff : charset == StandardCharsets.ISO_8859_1 ? 255 : 127;
    }

    private static int count(char[] chars, int greatest) {
        int count = 0;
        int place = 0;
        while (place < chars.length) { //@WCA loop=64 elements
            int point = pointAt(chars, place);
            place += point >= 0x10000 ? 2 : 1;
            count += greatest < 256 || isSurrogate(point) ? 1 : size(point);
        }
        return count;
    }

    /** The code point at a place: a pair of surrogates, or a char. */
    private static int pointAt(char[] chars, int place) {
        char high = chars[place];
        if (high >> 10 != 0xd800 >> 10 || place + 1 >= chars.length || chars[place + 1] >> 10 != 0xdc00 >> 10) {
            return high;
        }
        return 0x10000 + ((high & 0x3ff) << 10) + (chars[place + 1] & 0x3ff);
    }

    private static boolean isSurrogate(int point) {
        return point >> 11 == 0xd800 >> 11;
    }

    /** How many bytes UTF-8 has for a code point. */
    private static int size(int point) {
        return point < 0x80 ? 1 : point < 0x800 ? 2 : point < 0x10000 ? 3 : 4;
    }

    /** Puts a code point; gives the count of its bytes. */
    private static int put(byte[] to, int place, int point, int greatest) {
        int size = greatest < 256 ? 1 : size(point);
        if (size == 1) {
            to[place] = (byte) point;
            return 1;
        }
        for (int k = size - 1; k > 0; k--) { //@WCA loop=3
            to[place + k] = (byte) (0x80 | point >> 6 * (size - 1 - k) & 0x3f);
        }
        to[place] = (byte) (0xf00 >> size | point >> 6 * (size - 1));
        return size;
    }

    /** The chars of some bytes; U+FFFD for what is no char. */
    public static char[] decode(byte[] bytes, int first, int count, Charset charset) {
        if ((first | count) < 0 || count > bytes.length - first) {
            throw new StringIndexOutOfBoundsException();
        }
        int greatest = greatest(charset);
        char[] chars = new char[count];
        if (greatest < 256) {
            decodeBytes(bytes, first, chars, greatest);
            return chars;
        }
        int made = decodeUtf8(bytes, first, first + count, chars);
        char[] all = new char[made];
        Copies.copy(chars, 0, all, 0, made);
        return all;
    }

    private static void decodeBytes(byte[] bytes, int first, char[] to, int greatest) {
        for (int k = 0; k < to.length; k++) { //@WCA loop=64 elements
            int each = bytes[first + k] & 0xff;
            to[k] = each > greatest ? WRONG : (char) each;
        }
    }

    /** Puts the chars; gives their count. */
    private static int decodeUtf8(byte[] bytes, int first, int end, char[] to) {
        int count = 0;
        int place = first;
        while (place < end) { //@WCA loop=64 elements
            int lead = bytes[place] & 0xff;
            int wanted = following(lead);
            int seen = seen(bytes, place, end, wanted);
            int point = lead < 0x80 ? lead : wanted == 0 || seen < wanted ? WRONG : point(bytes, place, wanted);
            place += 1 + seen;
            if (point >= 0x10000) {
                to[count] = (char) (0xd800 + (point - 0x10000 >> 10));
                count++;
                point = 0xdc00 + (point & 0x3ff);
            }
            to[count] = isSurrogate(point) && wanted == 2 ? WRONG : (char) point;
            count++;
        }
        return count;
    }

    /** How many bytes follow a first one; 0 also of one that is none. */
    private static int following(int lead) {
        return lead < 0xc2 || lead > 0xf4 ? 0 : lead < 0xe0 ? 1 : lead < 0xf0 ? 2 : 3;
    }

    /** How many of the bytes that are wanted follow. */
    private static int seen(byte[] bytes, int place, int end, int wanted) {
        int seen = 0;
        while (seen < wanted && place + 1 + seen < end && follows(bytes[place] & 0xff, seen, bytes[place + 1 + seen] & 0xff)) { //@WCA loop=3
            seen++;
        }
        return seen;
    }

    private static boolean follows(int lead, int seen, int each) {
        int least = seen > 0 ? 0x80 : lead == 0xe0 ? 0xa0 : lead == 0xf0 ? 0x90 : 0x80;
        return each >= least && each <= (seen == 0 && lead == 0xf4 ? 0x8f : 0xbf);
    }

    private static int point(byte[] bytes, int place, int following) {
        int point = bytes[place] & 0x3f >> following;
        for (int k = 1; k <= following; k++) { //@WCA loop=3
            point = point << 6 | bytes[place + k] & 0x3f;
        }
        return point;
    }
}
