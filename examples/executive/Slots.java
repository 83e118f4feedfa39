import jop.Io;

/** The controller as three slots of a cyclic executive: in each round a sample is read, worked on and reported. */
public class Slots {
    private static final int LIMIT = 255;
    private static final Stage[] STAGES = {new Gain(2, LIMIT), new Mean()};
    private static int sample;
    private static int level;
    private static int overloads;

    /** Reads a sample. */
    public static void sense() {
        sample = Io.read();
    }

    /** Hands it to the stages, as far as they pass it on. */
    public static void control() {
        level = sample;
        try {
            for (int i = 0; i < STAGES.length; i++) { //@WCA loop=2
                level = STAGES[i].step(level);
            }
        } catch (Overload overload) {
            overloads++;
            level = LIMIT - overload.level() % 16;
        }
    }

    /** Writes what they made of it. */
    public static void report() {
        Io.write(level);
    }

    /** Does what the executive does in twelve rounds, in a program of its own. */
    public static void main(String[] arguments) {
        for (int round = 0; round < 12; round++) {
            sense();
            control();
            report();
        }
    }
}
