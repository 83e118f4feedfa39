package java.util.zip;

/** Data of another form. */
public class DataFormatException extends Exception {
    public DataFormatException() {
    }

    public DataFormatException(String message) {
        super(message);
    }
}
