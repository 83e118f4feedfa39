/** Static initialisers that read what others made, in classes named in another order. */
public class Order {
    static final int[] SQUARES = Base.squares(Limits.COUNT);
    static final int TOTAL = Deep.value() + SQUARES[3];

    static final class Deep {
        private static final int[] CACHE = {ZLast.START, Base.step()};

        static int value() {
            return CACHE[0] * 100 + CACHE[1];
        }
    }

    static final class Limits {
        static final int COUNT = ZLast.START + 2;
    }

    static final class Base {
        private static int steps = ZLast.START * 2;

        static int step() {
            return steps + 1;
        }

        static int[] squares(int count) {
            int[] squares = new int[count];
            for (int k = 0; k < count; k++) {
                squares[k] = k * k + steps;
            }
            return squares;
        }
    }

    static final class ZLast {
        static final int START;

        static {
            int start = 0;
            for (int k = 0; k < 4; k++) {
                start += k;
            }
            START = start;
        }
    }

    enum Level {
        LOW, HIGH;

        static final Level[] BY_CODE = new Level[Level.values().length + 1];

        static {
            for (Level level : values()) {
                BY_CODE[level.ordinal() + 1] = level;
            }
        }
    }

    static final class Levels {
        static final Level FIRST = Level.BY_CODE[1];
        static final String TEXT = "level " + FIRST;
    }

    static class Parent {
        static final int BASE = ZLast.START + 1;
    }

    static class Child extends Parent {
        static final int OWN = BASE * 3;
    }

    public static void main(String[] args) {
        System.out.println(TOTAL + " " + SQUARES.length + " " + Levels.TEXT + " " + Child.OWN + " " + Deep.CACHE[1]);
    }
}
