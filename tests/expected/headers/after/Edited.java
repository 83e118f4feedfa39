/** A program whose first loop is deleted afterwards. */
public class Edited {
    static int sum(int n) {
        int sum = 0;
        for (int i = 0; i < 9 * n; i++) {
            sum -= i;
        }
        return sum;
    }

    public static void main(String[] arguments) {
        jop.Io.write(sum(10));
    }
}
