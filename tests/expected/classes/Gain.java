class Gain implements Stage {
    static final long TOTAL = 5L;
    static final String NAME = "gain";
    private long sum;
    public synchronized int step(int x) throws Exception {
        synchronized (this) { sum += x; }
        if (x < 0) throw new Exception(NAME);
        return x * 2;
    }
}
