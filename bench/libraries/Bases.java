import org.apache.commons.codec.binary.Base64;

/** Bytes in Base64 and back, in lines and for addresses. */
public class Bases {
    public static void main(String[] args) {
        for (int count = 38; count < 41; count++) {
            byte[] encoded = Base64.encodeBase64(Data.noise(count));
            Data.put(encoded);
            Data.put(Base64.decodeBase64(encoded));
        }
        Data.put(Base64.encodeBase64Chunked(Data.text(100)));
        System.out.println(Base64.encodeBase64URLSafeString(Data.noise(50)));
        Data.put(Base64.decodeBase64("aGVsbG8sIHdvcmxk"));
    }
}
