class Pick {
    class Inner { double half = 0.5; }
    static int pick(int x, String s) {
        switch (x) { case 1: return 7; case 2: return 8; case 1000: return 9; }
        try { return s.length(); } catch (NullPointerException e) { return -1; } finally { x++; }
    }
    Runnable run() { return () -> pick(1, "\u0000\u20ac"); }
}
