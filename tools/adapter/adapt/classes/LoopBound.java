package adapt.classes;

/** How often a loop is gone round at most, and what is promised of the program so that it is; the promise is null where it always is. */
public record LoopBound(int count, String promise) {
    /** What holds of all arguments. */
    public static LoopBound always(int count) {
        return new LoopBound(count, null);
    }

    /** What holds of arrays of at most so many elements, and of texts of so many chars. */
    public static LoopBound ofElements(int count, int elements) {
        return new LoopBound(count, "at most " + elements + " elements");
    }

    /** What holds where either does: the greater number, and a promise where one is a promise. */
    public LoopBound or(LoopBound other) {
        return new LoopBound(Math.max(count, other.count), promise == null ? other.promise : promise);
    }
}
