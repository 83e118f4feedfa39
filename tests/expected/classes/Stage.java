interface Stage {
    int LIMIT = 9;
    int step(int x) throws Exception;
    default int twice(int x) throws Exception { return step(step(x)); }
}
