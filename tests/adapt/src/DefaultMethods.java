/** Default methods: inherited, overridden in classes and in interfaces, called by super, chosen among several interfaces. */
public class DefaultMethods {
    interface Shape {
        int area();

        default int doubled() {
            return 2 * area();
        }

        default String text() {
            return "shape of " + area();
        }
    }

    interface Named extends Shape {
        @Override
        default String text() {
            return "named " + Shape.super.text();
        }
    }

    interface Plain extends Shape {
    }

    static class Square implements Shape {
        final int side;

        Square(int side) {
            this.side = side;
        }

        @Override
        public int area() {
            return side * side;
        }
    }

    static class NamedSquare extends Square implements Named {
        NamedSquare(int side) {
            super(side);
        }
    }

    static class Both extends Square implements Plain, Named {
        Both(int side) {
            super(side);
        }

        @Override
        public int doubled() {
            return 1 + Plain.super.doubled();
        }
    }

    static class Own extends NamedSquare {
        Own(int side) {
            super(side);
        }

        @Override
        public String text() {
            return "own, " + super.text();
        }
    }

    abstract static class Base {
        public String text() {
            return "class first";
        }
    }

    static class FromBase extends Base implements Named {
        @Override
        public int area() {
            return 1;
        }
    }

    interface Left {
        default int side() {
            return 1;
        }
    }

    interface Right {
        default int side() {
            return 2;
        }
    }

    static class Middle implements Left, Right {
        @Override
        public int side() {
            return 10 * Left.super.side() + Right.super.side();
        }
    }

    public static void main(String[] args) {
        Shape[] shapes = {new Square(2), new NamedSquare(3), new Both(4), new Own(5), new FromBase()};
        for (Shape shape : shapes) {
            System.out.println(shape.text() + " " + shape.doubled());
        }
        System.out.println(new NamedSquare(6).text() + new Both(1).doubled() + new Middle().side());
        Shape anonymous = new Plain() {
            @Override
            public int area() {
                return 77;
            }
        };
        System.out.println(anonymous.text() + anonymous.doubled());
    }
}
