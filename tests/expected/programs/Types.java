import jop.Io;

/** Tests of types and casts, of classes, interfaces and arrays. */
public class Types {
    interface Shape {}

    static class Square implements Shape {}

    private static int kind(Object thing) {
        int kinds = 0;
        if (thing instanceof Shape) {
            kinds |= 1;
        }
        if (thing instanceof Square) {
            kinds |= 2;
        }
        if (thing instanceof Object[]) {
            kinds |= 4;
        }
        if (thing instanceof Shape[]) {
            kinds |= 8;
        }
        if (thing instanceof int[]) {
            kinds |= 16;
        }
        if (thing instanceof Cloneable) {
            kinds |= 32;
        }
        return kinds;
    }

    private static int cast(Object thing) {
        try {
            Shape shape = (Square) thing;
            return shape == null ? '0' : 's';
        } catch (ClassCastException fault) {
            return 'c';
        }
    }

    public static void main(String[] arguments) {
        Object[] things = {null, new Square(), new Square[1], new Shape[1], new int[1], new Object[1], "text", new Types()};
        for (Object thing : things) {
            Io.write(kind(thing));
            Io.write(cast(thing));
        }
        try {
            Io.write(1 / (things.length - 8));
        } catch (ArithmeticException fault) {
            Io.write('a');
        }
        Io.write(Integer.MIN_VALUE / (things.length - 9) >>> 31);
        Io.write(-7 % 3);
    }
}
