package java.lang;

/** An assertion that failed. Messages that are made at run time are null. */
public class AssertionError extends Error {
    public AssertionError() {
    }

    /** The message is the detail where that is a String. */
    public AssertionError(Object detail) {
        super(messageOf(detail));
    }

    public AssertionError(boolean detail) {
        super(detail ? "true" : "false");
    }

    public AssertionError(char detail) {
    }

    public AssertionError(int detail) {
    }

    public AssertionError(long detail) {
    }

    private static String messageOf(Object detail) {
        if (detail instanceof String) {
            return (String) detail;
        }
        return detail instanceof jop.Text ? ((jop.Text) detail).literal() : null;
    }
}
