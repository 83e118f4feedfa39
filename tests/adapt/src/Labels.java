import java.util.Random;

/** Methods whose loops turn as often as texts and arrays are long, and others that turn as often as a constant says. */
public class Labels {
    enum Side {
        LEFT, RIGHT;

        static Side[] twice(Side[] sides) {
            return sides.clone();
        }
    }

    enum Size {
        SMALL, LARGE, HUGE
    }

    /** The witness: two texts of 1,280 chars take 368,991 cycles. */
    static int label(String first, String second) {
        return first.concat(second).hashCode();
    }

    static int[][] rows(int length) {
        return new int[4][length];
    }

    static long[][][] rooms(int count) {
        return new long[count][7][1];
    }

    static String text(int length) {
        StringBuilder text = new StringBuilder();
        for (int i = 0; i < length; i++) {
            text.append((char) ('a' + i % 26));
        }
        return text.toString();
    }

    public static void main(String[] arguments) {
        System.out.println(label(text(1280), text(1280)));
        System.out.println(rows(3).length + rows(0)[3].length + rooms(2)[1].length);
        System.out.println(Side.values().length + Side.twice(new Side[5]).length + Size.values().length);
        System.out.println(new Random(7).nextInt(1000));
    }
}
