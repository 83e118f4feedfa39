abstract class Shape implements Runnable {
    static final int LIMIT = 9;
    static final String NAME = "shape";
    final int weight = 5;
    long sum;
    abstract int area();
    native int perimeter();
    public void run() { sum += weight; }
    static int pick(String s, int x) {
        try { return s.length(); } catch (NullPointerException e) { return x < 0 ? -1 : x; }
    }
    static Object copy(int[] xs) { return xs.clone(); }
}
