import jop.Io;

/** Reads samples to the end of its input, and writes what the stages make of each, and at last how many were overloads. */
public class Main {
    private static final int LIMIT = 255;
    private static final Stage[] STAGES = {new Gain(2, LIMIT), new Mean()};
    private static int overloads;

    public static void main(String[] arguments) {
        int sample = Io.read();
        while (sample >= 0) { //@WCA loop=12
            Io.write(output(sample));
            sample = Io.read();
        }
        Io.write(overloads);
    }

    private static int output(int sample) {
        int level = sample;
        try {
            for (int i = 0; i < STAGES.length; i++) { //@WCA loop=2
                level = STAGES[i].step(level); //@WCA total<=2
            }
        } catch (Overload overload) {
            overloads++;
            level = LIMIT - overload.level() % 16;
        }
        return level;
    }
}
