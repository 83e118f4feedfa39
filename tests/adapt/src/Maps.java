import java.util.ArrayList;
import java.util.Arrays;
import java.util.HashMap;
import java.util.HashSet;
import java.util.Iterator;
import java.util.List;
import java.util.Map;
import java.util.Set;

/** Maps and sets: words that are counted, keys of one's own and of an enum, and more entries than a map has cells for at first. */
public class Maps {
    enum Kind {
        SMALL, LARGE
    }

    static final class Point {
        private final int x;
        private final int y;

        Point(int x, int y) {
            this.x = x;
            this.y = y;
        }

        @Override
        public boolean equals(Object other) {
            return other instanceof Point && ((Point) other).x == x && ((Point) other).y == y;
        }

        @Override
        public int hashCode() {
            return 31 * (x % 2) + y;
        }

        @Override
        public String toString() {
            return x + "," + y;
        }
    }

    private static final Map<String, Integer> SEEN = new HashMap<>();

    static int count(String word) {
        Integer old = SEEN.get(word);
        SEEN.put(word, old == null ? 1 : old + 1);
        return SEEN.merge("all", 1, Integer::sum);
    }

    static Integer once(Point at, Map<Point, Integer> all) {
        return all.computeIfAbsent(at, key -> key.x * 10 + key.y);
    }


    public static void main(String[] arguments) {
        for (String word : new String[] {"the", "cat", "and", "the", "dog", "and", "the", "bird"}) {
            System.out.println(word + " " + count(word));
        }
        System.out.println(SEEN);
        Map<Point, Integer> points = new HashMap<>();
        for (int k = 0; k < 30; k++) {
            System.out.print(once(new Point(k % 7, k % 3), points) + " ");
        }
        System.out.println(points + " " + points.size());
        Map<Kind, List<Integer>> kinds = new HashMap<>();
        for (int k = 0; k < 6; k++) {
            kinds.computeIfAbsent(k < 4 ? Kind.SMALL : Kind.LARGE, key -> new ArrayList<>()).add(k);
        }
        System.out.println(kinds.get(Kind.SMALL) + " " + kinds.get(Kind.LARGE));
        Set<Integer> numbers = new HashSet<>();
        for (int k = 0; k < 60; k++) {
            numbers.add(k * k * 31 - 900);
        }
        System.out.println(numbers);
        for (Iterator<Integer> each = numbers.iterator(); each.hasNext();) {
            if (each.next() % 2 == 0) {
                each.remove();
            }
        }
        System.out.println(numbers + " " + numbers.contains(131) + numbers.equals(new HashSet<>(new ArrayList<>(Arrays.asList(1, 2)))));
        int sum = 0;
        for (Map.Entry<String, Integer> each : SEEN.entrySet()) {
            sum += each.getValue();
            each.setValue(-each.getValue());
        }
        System.out.println(sum + " " + SEEN.values() + SEEN.keySet());
    }
}
