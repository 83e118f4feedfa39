/** The weights of samples by age, each half of the one before. */
class Weights {
    static final int COUNT = 4;
    private static final int[] WEIGHTS = new int[COUNT];
    private static int sum;

    static {
        for (int age = 0; age < COUNT; age++) {
            WEIGHTS[age] = 1 << (COUNT - 1 - age);
            sum += WEIGHTS[age];
        }
    }

    static int of(int age) {
        return WEIGHTS[age];
    }

    static int sum() {
        return sum;
    }
}
