import java.util.ArrayDeque;
import java.util.ArrayList;
import java.util.Arrays;
import java.util.Collection;
import java.util.Collections;
import java.util.Comparator;
import java.util.HashMap;
import java.util.HashSet;
import java.util.Iterator;
import java.util.List;
import java.util.Map;
import java.util.Set;

/** Collections that can't be changed, and the default methods of collections. */
public class Views {
    private static void raised(Runnable change) {
        try {
            change.run();
            System.out.print("nothing ");
        } catch (UnsupportedOperationException raised) {
            System.out.print("unsupported ");
        }
    }

    private static void refusing(Collection<String> all) {
        raised(() -> all.add("x"));
        raised(() -> all.remove("a"));
        raised(() -> all.addAll(Arrays.asList("y")));
        raised(() -> all.clear());
        raised(() -> {
            Iterator<String> each = all.iterator();
            each.next();
            each.remove();
        });
    }

    private static void unchanging(Collection<String> all) {
        refusing(all);
        System.out.println(all + " " + all.size() + all.isEmpty() + all.contains("a") + Arrays.toString(all.toArray()));
        for (String each : all) {
            System.out.print(each + ".");
        }
        System.out.println(all.equals(all) + " " + all.hashCode());
    }

    private static void lists() {
        List<String> own = new ArrayList<>(Arrays.asList("a", "b"));
        List<String> shown = Collections.unmodifiableList(own);
        unchanging(shown);
        own.add("c");
        raised(() -> shown.set(0, "z"));
        raised(() -> shown.add(0, "z"));
        raised(() -> shown.remove(0));
        System.out.println(shown + " " + shown.get(2) + shown.indexOf("c") + shown.lastIndexOf("q") + shown.equals(own) + own.equals(shown));
        System.out.println(Collections.unmodifiableList(shown).equals(own) + " " + Collections.synchronizedList(own) + Collections.emptyIterator().hasNext());
    }

    private static void sets() {
        Set<String> own = new HashSet<>(Arrays.asList("a", "b"));
        unchanging(Collections.unmodifiableSet(own));
        unchanging(Collections.singleton("a"));
        System.out.println(Collections.emptySet() + " " + Collections.emptySet().size() + Collections.unmodifiableSet(own).equals(own));
        System.out.println(Collections.synchronizedSet(own) + " " + Collections.synchronizedCollection(own) + Collections.synchronizedMap(new HashMap<>()));
    }

    private static void collections() {
        List<String> own = new ArrayList<>(Arrays.asList("a", "b"));
        Collection<String> shown = Collections.unmodifiableCollection(own);
        refusing(shown);
        own.add("c" + own.size());
        System.out.println(shown + " " + shown.contains("c2") + shown.equals(own) + own.equals(shown) + Arrays.toString(shown.toArray(new String[0])));
        unchangeable(Collections.unmodifiableCollection(new HashSet<>(own)));
        unchangeable(Collections.unmodifiableCollection(new ArrayDeque<>(own)));
        unchangeable(Collections.unmodifiableCollection(own.subList(1, 3)));
        unchangeable(Collections.unmodifiableCollection(Collections.unmodifiableList(own)));
        unchangeable(Collections.unmodifiableCollection(Collections.unmodifiableSet(new HashSet<>(own))));
        unchangeable(Collections.unmodifiableCollection(shown));
        Map<Integer, String> map = new HashMap<>();
        map.put(3, "three");
        unchangeable(Collections.unmodifiableCollection(map.values()));
    }

    private static void unchangeable(Collection<String> shown) {
        refusing(shown);
        System.out.print(shown + " " + shown.size() + shown.isEmpty() + shown.contains("a"));
        for (String each : shown) {
            System.out.print(" " + each);
        }
        System.out.println();
    }

    private static void maps() {
        Map<String, Integer> own = new HashMap<>();
        own.put("a", 1);
        own.put("b", 2);
        Map<String, Integer> shown = Collections.unmodifiableMap(own);
        unchanging(shown.keySet());
        raised(() -> shown.put("x", 1));
        raised(() -> shown.remove("a"));
        raised(() -> shown.putAll(own));
        raised(() -> shown.clear());
        raised(() -> shown.putIfAbsent("x", 1));
        raised(() -> shown.remove("a", 1));
        raised(() -> shown.replace("a", 1));
        raised(() -> shown.computeIfAbsent("a", key -> 1));
        raised(() -> shown.computeIfPresent("a", (key, value) -> 1));
        raised(() -> shown.compute("a", (key, value) -> 1));
        raised(() -> shown.merge("a", 1, (one, two) -> 1));
        System.out.println(shown + " " + shown.size() + shown.isEmpty() + shown.containsKey("a") + shown.containsValue(3) + shown.get("b") + shown.getOrDefault("q", 9));
        System.out.println(shown.values() + " " + shown.entrySet() + shown.equals(own) + (shown.hashCode() == own.hashCode()));
        shown.forEach((key, value) -> System.out.print(key + value + " "));
        System.out.println(Collections.emptyMap() + " " + Collections.singletonMap("k", 5) + Collections.unmodifiableMap(shown).get("a"));
    }

    private static void defaults() {
        List<Integer> list = new ArrayList<>(Arrays.asList(5, 2, 9, 4, 7, 2));
        list.forEach(each -> System.out.print(each + " "));
        System.out.println(list.removeIf(each -> each > 6) + " " + list + list.removeIf(each -> each > 6));
        list.sort(null);
        System.out.println(list + " " + list.containsAll(Arrays.asList(2, 4)) + list.containsAll(Arrays.asList(2, 8)));
        Comparator<Integer> order = (one, two) -> one - two;
        list.sort(order.reversed());
        list.replaceAll(each -> each * 10);
        System.out.println(list + " " + list.addAll(1, Arrays.asList(1, 2)) + list + list.addAll(0, new ArrayList<Integer>()));
        System.out.println(list.removeAll(Arrays.asList(1, 50)) + " " + list + list.retainAll(new HashSet<>(Arrays.asList(20, 2))) + list + list.retainAll(list));
        Iterator<Integer> each = list.iterator();
        each.next();
        each.forEachRemaining(rest -> System.out.print(rest + "; "));
        Iterable<Integer> own = () -> Arrays.asList(1, 2, 3).iterator();
        own.forEach(System.out::print);
        Collections.sort(list, Collections.reverseOrder(order));
        Collections.sort(list, Collections.reverseOrder(null));
        System.out.println(list);
    }

    public static void main(String[] arguments) {
        lists();
        sets();
        collections();
        maps();
        defaults();
    }
}
