import java.util.ArrayDeque;
import java.util.ArrayList;
import java.util.Arrays;
import java.util.Collection;
import java.util.Collections;
import java.util.HashMap;
import java.util.HashSet;
import java.util.Iterator;
import java.util.LinkedList;
import java.util.List;
import java.util.Map;

/** Classes below those of the library, which are copied and whose methods the library's own do or don't call. */
public class Overrides {
    /** Counts what is added, found and removed by its own methods. */
    private static class Counted extends ArrayList<String> {
        private int added;
        private int found;
        private int removed;

        Counted(String... all) {
            super(Arrays.asList(all));
        }

        @Override
        public boolean add(String element) {
            added++;
            return super.add(element);
        }

        @Override
        public String get(int place) {
            found++;
            return super.get(place);
        }

        @Override
        public String remove(int place) {
            removed++;
            return super.remove(place);
        }

        String told() {
            return super.toString() + added + found + removed;
        }
    }

    private static final class Twice extends Counted {
        private String mark = "twice";

        @Override
        public Twice clone() {
            Twice copy = (Twice) super.clone();
            copy.mark += "!";
            return copy;
        }

        @Override
        String told() {
            return mark + super.told();
        }
    }

    private static final class Doubling extends LinkedList<String> {
        @Override
        public boolean add(String element) {
            return super.add(element + element);
        }
    }

    private static final class Upper extends HashMap<String, String> {
        private int puts;

        @Override
        public String put(String key, String value) {
            puts++;
            return super.put(key.toUpperCase(), value);
        }
    }

    private static final class Seen extends HashSet<String> {
        private int adds;

        @Override
        public boolean add(String element) {
            adds++;
            return super.add(element);
        }
    }

    private static void lists() {
        Counted list = new Counted("a", "b", "c");
        list.addAll(Arrays.asList("d", "e"));
        list.add("f" + list.size());
        System.out.println(list.indexOf("c") + " " + list.contains("x") + list.lastIndexOf("b") + list.equals(new ArrayList<>(list)) + list.told());
        for (String each : list) {
            System.out.print(each);
        }
        System.out.println(list.remove("d") + list.remove(0) + list.remove("q") + list.set(0, "z") + list.get(1) + list.hashCode() + list.told());
        Iterator<String> each = list.iterator();
        each.next();
        each.remove();
        System.out.println(list.told() + list.size() + Arrays.toString(list.toArray()) + list.addAll(new ArrayList<>()));
    }

    private static void copies() {
        Counted list = new Counted("a", "b");
        list.add("c");
        Counted copy = (Counted) list.clone();
        copy.add("x");
        list.add("y");
        System.out.println(list.told() + copy.told() + (copy.getClass() == Counted.class) + (list.clone().equals(list)));
        Twice twice = new Twice();
        twice.add("t");
        Twice other = twice.clone();
        other.add("u");
        System.out.println(twice.told() + other.told() + other.clone().told());
        ArrayList<String> plain = new ArrayList<>(Arrays.asList("p", null, "q" + copy.size()));
        @SuppressWarnings("unchecked")
        List<String> second = (List<String>) plain.clone();
        second.set(0, "r");
        System.out.println(plain + " " + second + (second.getClass() == ArrayList.class));
        Doubling doubling = new Doubling();
        doubling.add("m");
        Object doubled = doubling.clone();
        System.out.println(doubling + " " + doubled + (doubled instanceof Doubling));
        LinkedList<Integer> numbers = new LinkedList<>(Arrays.asList(1, 2, 3));
        numbers.addFirst(0);
        LinkedList<?> others = (LinkedList<?>) numbers.clone();
        others.removeFirst();
        System.out.println(numbers + " " + others);
        ArrayDeque<Integer> deque = new ArrayDeque<>(numbers);
        deque.pollFirst();
        ArrayDeque<Integer> copied = deque.clone();
        copied.addLast(8);
        deque.addFirst(7);
        System.out.println(deque + " " + copied);
    }

    private static void maps() {
        Upper map = new Upper();
        map.put("a", "1");
        map.putAll(Collections.singletonMap("b", "2"));
        map.putIfAbsent("c", "3");
        Upper copy = (Upper) map.clone();
        copy.put("d", "4");
        System.out.println(map + " " + map.puts + copy + copy.puts + (copy.getClass() == map.getClass()) + copy.equals(map));
        HashMap<String, Integer> plain = new HashMap<>();
        for (int k = 0; k < 20; k++) {
            plain.put("k" + k * 7, k);
        }
        Map<?, ?> second = (Map<?, ?>) plain.clone();
        plain.remove("k0");
        System.out.println(plain + " " + second + second.size());
        HashMap<?, ?> none = (HashMap<?, ?>) new HashMap<>(40).clone();
        System.out.println(none + " " + none.isEmpty());
        Seen seen = new Seen();
        seen.addAll(Arrays.asList("x", "y", "x"));
        Seen again = (Seen) seen.clone();
        again.add("z");
        System.out.println(seen + " " + seen.adds + again + again.adds);
        HashSet<String> set = new HashSet<>(Arrays.asList("l", "m"));
        Collection<?> other = (Collection<?>) set.clone();
        set.add("n");
        System.out.println(set + " " + other);
    }

    public static void main(String[] arguments) {
        lists();
        copies();
        maps();
    }
}
