import java.util.AbstractList;
import java.util.ArrayList;
import java.util.Iterator;
import java.util.List;

/** Lists of one's own below AbstractList. */
public class OwnLists {
    static class Squares extends AbstractList<Integer> {
        private final int count;

        Squares(int count) {
            this.count = count;
        }

        @Override
        public Integer get(int place) {
            return place * place;
        }

        @Override
        public int size() {
            return count;
        }
    }

    private static String kind(Runnable change) {
        try {
            change.run();
            return "done";
        } catch (UnsupportedOperationException raised) {
            return "unsupported";
        }
    }

    public static void main(String[] arguments) {
        List<Integer> squares = new Squares(5);
        System.out.println(squares + " " + squares.indexOf(9) + squares.contains(5) + squares.lastIndexOf(16));
        System.out.println(kind(() -> squares.set(0, 1)) + kind(() -> squares.add(1)) + kind(() -> squares.add(0, 1)) + kind(() -> squares.remove(0)));
        System.out.println(kind(squares::clear) + kind(() -> new Squares(0).clear()));
        Iterator<Integer> each = squares.iterator();
        each.next();
        System.out.println(kind(each::remove));
        System.out.println(new ArrayList<>(squares).equals(squares) + " " + squares.equals(new Squares(4)) + " " + (squares.hashCode() == new Squares(5).hashCode()));
    }
}
