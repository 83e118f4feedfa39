/** The weighted mean of the last samples. */
class Mean implements Stage {
    private final int[] last = new int[Weights.COUNT];
    private int next;

    public int step(int sample) {
        last[next] = sample;
        next = (next + 1) % last.length;
        int sum = 0;
        for (int age = 0; age < last.length; age++) { //@WCA loop=4
            int place = (next + last.length - 1 - age) % last.length; //@WCA total<=4
            sum += last[place] * Weights.of(age);
        }
        return sum / Weights.sum();
    }
}
