import jop.Io;
import plant.Valve;

/** A program of whose methods each lacks something that a bound wants; tests/page/make changes `knot` behind javac. */
public class Faults {
    private static final String TEXT = "no note: // @WCA loop=9";

    /** A loop without a bound, which goes round as long as there is input. */
    static int sum() {
        int sum = 0;
        for (int b = Io.read(); b >= 0; b = Io.read()) {
            sum += b;
        }
        return sum;
    }

    /** A note that is misspelt. */
    static int first(int[] list) {
        int at = 0;
        while (at < list.length && list[at] == 0) { // @WCA lop=8
            at++;
        }
        return at;
    }

    /** A note of a loop that is gone. */
    static int twice(int n) { // @WCA loop=3
        return 2 * n;
    }

    /** Two methods that call one another. */
    static boolean even(int n) {
        return n == 0 || odd(n - 1);
    }

    static boolean odd(int n) {
        return n != 0 && even(n - 1);
    }

    /** A loop that is entered in its middle, too, once make has been here. */
    static int knot(int n) {
        int sum = 0;
        if (n > 5) {
            sum = 1;
        }
        while (n > 0) { // @WCA loop=9
            if ((n & 1) == 0) {
                sum += n;
            }
            n--;
        }
        return sum;
    }

    /** Not called: what it lacks is no error. */
    static int spare(int n) {
        while (n > 9) {
            n /= 2;
        }
        return n;
    }

    public static void main(String[] arguments) {
        Io.write(sum() + first(new int[TEXT.length()]) + twice(3) + knot(4));
        Io.write(even(4) ? 1 : 0);
        Io.write(new Valve().open(3));
    }
}
