import jop.Io;

/** A loop with calls and array accesses, to measure how many cycles of the machine a second takes. */
public class Loop {
    private static int mixed(int[] list, int place, int by) {
        int at = place & 63;
        list[at] = list[at] * 31 + by + 7;
        return list[at] >>> 3;
    }

    public static void main(String[] arguments) {
        int[] list = new int[64];
        int sum = 0;
        for (int i = 0; i < 200000; i++) {
            sum += mixed(list, i, sum);
        }
        Io.write(sum >> 24);
        Io.write(sum >> 16);
        Io.write(sum >> 8);
        Io.write(sum);
    }
}
