/** Static methods and constants of interfaces, and private methods of interfaces. */
public class StaticInterfaces {
    interface Scale {
        int[] STEPS = steps();
        int LIMIT = 12;

        static int[] steps() {
            int[] steps = new int[LIMIT];
            for (int k = 0; k < LIMIT; k++) {
                steps[k] = square(k);
            }
            return steps;
        }

        private static int square(int k) {
            return k * k;
        }

        int offset();

        private int shifted(int k) {
            return STEPS[k] + offset();
        }

        default int at(int k) {
            return k < LIMIT ? shifted(k) : past(k);
        }

        private int past(int k) {
            return -shifted(k % LIMIT);
        }

        static Scale of(int offset) {
            return new Fixed(offset);
        }
    }

    static final class Fixed implements Scale {
        private final int offset;

        Fixed(int offset) {
            this.offset = offset;
        }

        @Override
        public int offset() {
            return offset;
        }
    }

    public static void main(String[] args) {
        Scale scale = Scale.of(33);
        for (int k = 0; k < 15; k++) {
            System.out.print(scale.at(k) + " ");
        }
        System.out.println(Scale.steps().length + Scale.STEPS[5]);
    }
}
