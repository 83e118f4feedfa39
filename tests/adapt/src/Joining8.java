/** String + of all kinds of values, as compilers for Java 8 write it. */
public class Joining8 {
    static final class Point {
        final int x;
        final long y;

        Point(int x, long y) {
            this.x = x;
            this.y = y;
        }

        @Override
        public String toString() {
            return "(" + x + "," + y + ")";
        }
    }

    static int count;

    static String named(String name) {
        return name + "#" + ++count;
    }

    public static void main(String[] args) {
        String nothing = null;
        Object none = null;
        Point[] points = {new Point(3, -4), new Point(Integer.MIN_VALUE, Long.MIN_VALUE), null};
        byte small = -128;
        short little = 32767;
        char letter = 'x';
        System.out.println("a" + 1 + 2L + 'c' + true + false + small + little + letter);
        System.out.println(1 + 2 + "three" + 4 + 5);
        System.out.println(nothing + none + nothing);
        for (Point point : points) {
            System.out.println("point " + point + "!");
        }
        String text = "";
        for (int k = 0; k < 12; k++) {
            text += k;
            text += k % 3 == 0 ? "," : "";
        }
        System.out.println(text + text.length());
        System.out.println(named("n") + named("m") + named("n"));
        System.out.println("" + Integer.MAX_VALUE + Integer.MIN_VALUE + Long.MAX_VALUE + Long.MIN_VALUE + (char) 65 + (int) 'A');
    }
}
