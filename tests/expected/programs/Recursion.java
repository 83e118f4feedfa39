import jop.Io;

/** Recursion to the end of the stack and back, and recursion that ends. */
public class Recursion {
    private static int overflows;

    private static int endless(int depth) {
        return endless(depth + 1) + 1;
    }

    private static int fibonacci(int n) {
        return n < 2 ? n : fibonacci(n - 1) + fibonacci(n - 2);
    }

    private static boolean isEven(int n) {
        return n == 0 || isOdd(n - 1);
    }

    private static boolean isOdd(int n) {
        return n != 0 && isEven(n - 1);
    }

    public static void main(String[] arguments) {
        for (int time = 0; time < 2; time++) {
            try {
                endless(0);
            } catch (StackOverflowError error) {
                overflows++;
            }
        }
        Io.write(overflows);
        Io.write(fibonacci(10));
        Io.write(isEven(9) ? 'e' : 'o');
    }
}
