/** Inner and local classes, and calls that raise where the outer object is null. */
public class Inner {
    private final int[] cells = new int[3];

    class Cursor {
        int place;

        int next() {
            return cells[place++ % cells.length]++;
        }

        class Pair {
            int both() {
                return next() * 10 + next();
            }
        }
    }

    static abstract class Counter {
        private int total;

        Counter add(int by) {
            total += weigh(by);
            return this;
        }

        abstract int weigh(int by);
    }

    static Counter counter(final int factor) {
        class Times extends Counter {
            @Override
            int weigh(int by) {
                return factor * by;
            }
        }
        return new Times();
    }

    public static void main(String[] args) {
        Inner inner = new Inner();
        Cursor cursor = inner.new Cursor();
        Cursor.Pair pair = cursor.new Pair();
        for (int k = 0; k < 5; k++) {
            System.out.print(cursor.next() + " " + pair.both() + " ");
        }
        System.out.println(counter(3).add(4).add(5).total);
        try {
            Inner none = null;
            none.new Cursor();
        } catch (NullPointerException e) {
            System.out.println("no outer");
        }
    }
}
