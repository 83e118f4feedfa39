/** A sample that a stage can't pass on. */
class Overload extends Exception {
    private final int level;

    Overload(int level) {
        super("overload");
        this.level = level;
    }

    int level() {
        return level;
    }
}
