import java.util.ArrayList;
import java.util.Iterator;

/** Methods that are called through an interface below the one that declares them. */
public class SubInterfaces {
    interface Shape {
        int area();

        default int twice() {
            return 2 * area();
        }
    }

    interface Round extends Shape {
    }

    static class Square implements Shape {
        public int area() {
            return 9;
        }
    }

    static class Disc implements Round {
        public int area() {
            return 12;
        }
    }

    interface Ranked extends Comparable<Ranked> {
        int rank();
    }

    static class Card implements Ranked {
        private final int rank;

        Card(int rank) {
            this.rank = rank;
        }

        public int rank() {
            return rank;
        }

        public int compareTo(Ranked other) {
            return rank - other.rank();
        }
    }

    interface Source<T> extends Iterable<T> {
    }

    static class Words implements Source<String> {
        private final ArrayList<String> words = new ArrayList<>();

        public Iterator<String> iterator() {
            return words.iterator();
        }
    }

    abstract static class Base {
        abstract int number();
    }

    static class One extends Base {
        int number() {
            return 1;
        }
    }

    static class Two extends Base {
        int number() {
            return 2;
        }
    }

    public static void main(String[] arguments) {
        Round round = new Disc();
        Object other = new Square();
        System.out.println(round.area() + " " + round.twice() + " " + (other == round));
        Ranked card = new Card(3);
        System.out.println("compared " + card.compareTo(new Card(5)) + " " + (other instanceof Comparable));
        Words words = new Words();
        words.words.add("w" + arguments.length);
        Source<String> source = words;
        for (String each : source) {
            System.out.println(each);
        }
        Two two = new Two();
        Object one = new One();
        System.out.println(two.number() + " " + (one instanceof Base));
    }
}
