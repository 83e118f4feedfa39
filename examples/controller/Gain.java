/** Multiplies each sample, and raises an overload above a limit. */
class Gain implements Stage {
    private final int factor;
    private final int limit;

    Gain(int factor, int limit) {
        this.factor = factor;
        this.limit = limit;
    }

    public int step(int sample) throws Overload {
        int level = sample * factor;
        if (level > limit) {
            throw new Overload(level);
        }
        return level;
    }
}
