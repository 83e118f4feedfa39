import jop.Io;

/** Adds what a stage makes of each element of an array. */
public class Adding {
    interface Stage {
        int step(int x);
    }

    static class Gain implements Stage {
        int k;

        Gain(int k) {
            this.k = k;
        }

        public int step(int x) {
            return x * k;
        }
    }

    static int[] v = {3, 1, 2};

    public static void main(String[] arguments) {
        Stage s = new Gain(2);
        int sum = 0;
        try {
            for (int i = 0; i < v.length; i++) {
                sum += s.step(v[i]);
            }
        } catch (ArithmeticException fault) {
            sum = -1;
        }
        Io.write(sum);
    }
}
