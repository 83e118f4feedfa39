/** Lines whose visits are bounded: a body, one that is copied, one that is come to again, and a loop's test. */
public class Visits {
    static int left;

    /** The dear line is come to twice in a call, though the loop goes round six times. */
    static int body(int n) {
        int sum = 0;
        while (n > 0) { // @WCA loop=6
            n--; // @WCA total<=6
            if (n % 3 == 1) {
                sum += n / 7 + n / 5; // @WCA total<=2
            }
        }
        return sum;
    }

    /** javac writes the code behind `finally` twice. */
    static void cleared(int n) {
        try {
            jop.Io.write(left / n);
        } finally {
            left = n / 3; // @WCA total<=1
        }
    }

    /** The line of the call is left for its argument, and come to again. */
    static int again(int n) {
        return body( // @ total <= 1
            next(n));
    }

    static int next(int n) {
        return n + 1;
    }

    /** Each entry of the inner loop allows as much: a file says so, by place. */
    static int nested(int n) {
        int sum = 0;
        for (int i = 0; i < n; i++) { // @WCA loop=4
            for (int k = i; k > 0; k--) { // @WCA loop=3
                sum += i / k;
            }
        }
        return sum;
    }

    public static void main(String[] arguments) {
        int n = jop.Io.read();
        jop.Io.write(body(n));
        cleared(n);
        jop.Io.write(again(n - 1) + nested(n - 2));
    }
}
