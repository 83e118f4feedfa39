package java.lang;

/** An index outside of a text. */
public class StringIndexOutOfBoundsException extends IndexOutOfBoundsException {
    public StringIndexOutOfBoundsException() {
    }

    public StringIndexOutOfBoundsException(String message) {
        super(message);
    }

    /** Without a message, since that is made at run time. */
    public StringIndexOutOfBoundsException(int index) {
    }
}
