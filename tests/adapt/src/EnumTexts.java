import java.util.ArrayList;

/** Texts of objects whose class is known, beside lists, whose texts may call those of any object. */
public class EnumTexts {
    enum Kind {
        ONE, TWO
    }

    static final class Point {
        private final int x;

        Point(int x) {
            this.x = x;
        }

        @Override
        public String toString() {
            return x < 0 ? null : "(" + x + ")";
        }
    }

    static String tell(Kind kind, Integer number, Point point) {
        return kind + "/" + number + String.valueOf(kind) + point;
    }

    static void print(Kind kind, Point point) {
        System.out.println(kind);
        System.out.print((Object) kind);
        System.out.println(point);
    }

    static String insert(Kind kind) {
        return new StringBuilder("ab").insert(1, kind).append((Object) kind).toString();
    }

    public static void main(String[] arguments) {
        ArrayList<Object> list = new ArrayList<>();
        list.add("q");
        list.add(Kind.TWO);
        list.add(new Point(4));
        System.out.println(tell(Kind.ONE, 7, new Point(3)) + list.size());
        System.out.println(tell(null, null, null));
        System.out.println(tell(Kind.TWO, -1, new Point(-1)));
        print(Kind.TWO, new Point(5));
        print(null, null);
        System.out.println(insert(Kind.ONE) + insert(null));
        Kind none = null;
        System.out.println("" + none + list);
        Object any = arguments.length == 0 ? Kind.ONE : "text";
        System.out.println("any " + any);
        Object first = arguments.length == 0 ? Kind.ONE : new Point(6);
        Object second = arguments.length == 0 ? new Point(7) : Kind.TWO;
        System.out.println("any " + first + second);
    }
}
