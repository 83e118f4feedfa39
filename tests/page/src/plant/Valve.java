package plant;

/** A valve of a plant, in a package, whose notes are right. */
public class Valve {
    private final int[] steps = new int[4];

    /** Opens by so many steps: a < b && b > 0 in a comment has to come out as it stands. */
    public int open(int by) {
        int opened = 0;
        // @WCA loop=4
        for (int step = 0; step < steps.length; step++) {
            //@ loop <= 3
            for (int turn = 0; turn < by; turn++) {
                opened += steps[step] < by && by > 0 ? 1 : 0;
            }
        }
        return opened;
    }
}
