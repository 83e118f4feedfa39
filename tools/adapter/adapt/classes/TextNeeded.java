package adapt.classes;

/** Raised where the program makes strings, so that its strings have to be objects of `jop/Text`, or reads messages that may be such. */
public final class TextNeeded extends RuntimeException {
    private static final long serialVersionUID = 1;
    /** What the program needs. */
    public final Strings strings;

    /** Objects of `jop/Text` are needed. */
    public TextNeeded() {
        this(Strings.TEXTS);
    }

    /** So much is needed. */
    public TextNeeded(Strings strings) {
        super(null, null, false, false);
        this.strings = strings;
    }
}
