/** Assertions that are switched off: neither their tests nor their messages are worked out. */
public class AssertionsOff {
    static int tried;

    static boolean attempt() {
        tried++;
        return false;
    }

    static final class Inner {
        int half(int x) {
            assert x % 2 == 0 : "odd " + x;
            assert attempt();
            return x / 2;
        }
    }

    static int loop(int n) {
        int sum = 0;
        for (int k = 0; k < n; k++) {
            try {
                assert k < 3 : k;
                sum += k;
            } finally {
                assert attempt() : new Object();
                sum += 100;
            }
        }
        return sum;
    }

    static int guarded(int[] cells, int k) {
        try {
            assert cells != null : "no cells";
            return cells[k];
        } finally {
            tried += 10;
        }
    }

    public static void main(String[] args) {
        try {
            guarded(new int[2], 1);
            guarded(null, 0);
        } catch (NullPointerException e) {
            jop.Io.write('0' + tried / 10);
            tried = 0;
        }
        jop.Io.write(new Inner().half(131));
        jop.Io.write(loop(5) - 400);
        jop.Io.write('0' + tried);
    }
}
