/** getClass and class literals: compared, and asked for their names. */
public class Kinds {
    static class Shape {
        final int size;

        Shape(int size) {
            this.size = size;
        }

        @Override
        public boolean equals(Object other) {
            if (other == null || getClass() != other.getClass()) {
                return false;
            }
            return size == ((Shape) other).size;
        }

        @Override
        public int hashCode() {
            return size;
        }
    }

    static final class Square extends Shape {
        Square(int size) {
            super(size);
        }
    }

    enum Level {
        LOW, HIGH {
            @Override
            int value() {
                return 2;
            }
        };

        int value() {
            return 1;
        }
    }

    static String kind(Object object) {
        Class<?> of = object.getClass();
        if (of == Shape.class) {
            return "shape";
        }
        return of == Square.class ? "square" : of == int[].class ? "ints" : of.equals(String.class) ? "string" : of.getName();
    }

    static class Trouble extends Exception {
        private static final long serialVersionUID = 1;

        Trouble(String what) {
            super(what);
        }
    }

    static final class Deep extends Trouble {
        private static final long serialVersionUID = 1;

        Deep(int depth) {
            super("depth " + depth);
        }

        @Override
        public String toString() {
            return "deep, " + super.toString();
        }
    }

    static void tell(Object what) {
        System.out.println("told: " + what);
    }

    static void tellAll(int[] cells) {
        tell(new Trouble("bad"));
        tell(new Trouble(null));
        tell(new Deep(7));
        tell(new IllegalStateException("state " + cells.length));
        System.out.println(new UnsupportedOperationException("literal").toString());
        String text = String.valueOf(new Shape(3));
        System.out.println(text.substring(0, text.indexOf('@')) + new int[0].toString().charAt(1));
    }

    public static void main(String[] args) {
        tellAll(new int[5]);
        Shape[] shapes = {new Shape(1), new Square(1), new Shape(2), new Square(1)};
        for (Shape one : shapes) {
            for (Shape two : shapes) {
                System.out.print(one.equals(two) ? 'y' : 'n');
            }
        }
        System.out.println(shapes[0].equals(null) + " " + shapes[1].equals("text"));
        Object[] all = {shapes[0], shapes[1], new int[2], "text", Level.LOW, Level.HIGH, shapes, new Object(), new Kinds[1][1], new byte[0],
            new IllegalStateException(), new Object[0], 'c', new StringBuilder("x")};
        for (Object each : all) {
            System.out.println(kind(each));
        }
        System.out.println(Kinds.class.getName() + " " + Level[].class.getName() + (all[4].getClass() == all[5].getClass()));
        try {
            throw new ArithmeticException("x");
        } catch (RuntimeException e) {
            System.out.println(e.getClass().getName() + " " + e.getMessage());
        }
        try {
            kind(null);
        } catch (NullPointerException e) {
            System.out.println("null");
        }
    }
}
