import java.util.ArrayList;
import java.util.List;

/** `super.clone()` of classes, and of classes below them. */
public class Clones {
    static class Point implements Cloneable {
        private static int made;
        protected int x;
        private final long y;
        private byte[] data = {1, 2};
        private boolean isNamed;

        Point(int x, long y) {
            this.x = x;
            this.y = y;
            made++;
        }

        long sum() {
            return x + y + data[0] + (isNamed ? 1000 : 0);
        }

        void name() {
            isNamed = true;
        }

        @Override
        public Point clone() {
            try {
                return (Point) super.clone();
            } catch (CloneNotSupportedException never) {
                throw new IllegalStateException("never");
            }
        }
    }

    static final class Named extends Point {
        private final String name;
        private List<Integer> marks = new ArrayList<>();

        Named(String name, int x) {
            super(x, -5);
            this.name = name;
        }

        @Override
        public Named clone() {
            Named copy = (Named) super.clone();
            copy.marks = new ArrayList<>(marks);
            return copy;
        }

        @Override
        public String toString() {
            return name + x + marks + sum();
        }
    }

    /** Two of one class, by a constructor like that of a copy. */
    static class Tree implements Cloneable {
        private Tree left;
        private Tree right;
        private char letter;

        Tree(Tree left, Tree right) {
            this.left = left;
            this.right = right;
            letter = 't';
        }

        Tree deep() throws CloneNotSupportedException {
            Tree copy = (Tree) super.clone();
            copy.left = left == null ? null : left.deep();
            copy.right = right == null ? null : right.deep();
            copy.letter++;
            return copy;
        }

        @Override
        public String toString() {
            return "(" + (left == null ? "" : left.toString()) + letter + (right == null ? "" : right.toString()) + ")";
        }
    }

    /** Can't be cloned, and the one below can. */
    static class Plain {
        int value = 4;

        Object copy() throws CloneNotSupportedException {
            return super.clone();
        }
    }

    static class Able extends Plain implements Cloneable {
        short more = 7;
    }

    private static String copied(Plain of) {
        try {
            Plain copy = (Plain) of.copy();
            return (copy == of) + " " + (copy instanceof Able) + copy.value + ((Able) copy).more;
        } catch (CloneNotSupportedException raised) {
            return "not supported";
        }
    }

    public static void main(String[] arguments) throws CloneNotSupportedException {
        Point point = new Point(3, 1L << 40);
        point.name();
        Point copy = point.clone();
        copy.x = 9;
        copy.data[0] = 50;
        System.out.println(point.sum() + " " + copy.sum() + " " + (copy != point) + (copy.data == point.data) + (copy instanceof Named) + Point.made);
        Named named = new Named("n", 6);
        named.marks.add(1);
        Point second = named.clone();
        named.marks.add(2);
        second.x++;
        System.out.println(named + " " + second + " " + Point.made);
        Tree tree = new Tree(new Tree(null, null), new Tree(null, new Tree(null, null)));
        System.out.println(tree.deep() + " " + tree + " " + tree.deep().deep());
        Able able = new Able();
        able.value = 12;
        System.out.println(copied(able) + " " + copied(new Plain()));
    }
}
