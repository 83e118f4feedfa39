import jop.Io;

/** Static initialisers of which each uses what those before it made. */
public class Starting {
    static class One {
        static final int[] FACTORS = {3, 5, 7};
        static int count = 1;
    }

    static class Two {
        static final int PRODUCT;

        static {
            int product = 1;
            for (int factor : One.FACTORS) {
                product *= factor;
            }
            PRODUCT = product;
            One.count++;
        }
    }

    static class Three {
        static final Object[] ALL = {One.FACTORS, new Three()};
        final int kept = Two.PRODUCT + One.count;
    }

    public static void main(String[] arguments) {
        Io.write(Three.ALL.length);
        Io.write(((Three) Three.ALL[1]).kept);
        Io.write(((int[]) Three.ALL[0])[2]);
        Io.write(One.count);
    }
}
