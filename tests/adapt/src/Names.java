import java.util.ArrayList;
import java.util.Map;

/** Names of classes as the source has them. */
public class Names {
    interface Shape {
    }

    static class Circle implements Shape {
    }

    class Part {
        class Inner$Part implements Shape {
        }
    }

    enum Kind {
        ONE, TWO {
            @Override
            int value() {
                return 2;
            }
        };

        int value() {
            return 1;
        }
    }

    private static void told(Object of) {
        System.out.println(of.getClass().getSimpleName() + "|" + of.getClass().getName());
    }

    public static void main(String[] arguments) {
        class Local implements Shape {
        }
        Part part = new Names().new Part();
        Object[] all = {new Circle(), part, part.new Inner$Part(), new Local(), new Shape() { }, Kind.ONE, Kind.TWO, new int[0], new byte[0][0], new Circle[1][0],
            "text" + arguments.length, "literal", new ArrayList<String>(), new IllegalStateException("x"), 5, 'c', new Object(), new String[0], new Object[0][0]};
        for (Object each : all) {
            told(each);
        }
        System.out.println(Names.class.getSimpleName() + Shape.class.getSimpleName() + Map.class.getSimpleName() + Map.Entry.class.getSimpleName()
            + long[].class.getSimpleName() + Shape[][].class.getSimpleName() + Runnable.class.getSimpleName());
    }
}
