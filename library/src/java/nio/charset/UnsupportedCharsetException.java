package java.nio.charset;

/** No charset has the name. */
public class UnsupportedCharsetException extends IllegalArgumentException {
    private final String name;

    public UnsupportedCharsetException(String name) {
        super(name);
        this.name = name;
    }

    public String getCharsetName() {
        return name;
    }
}
