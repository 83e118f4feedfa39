import java.util.AbstractMap;
import java.util.AbstractSet;
import java.util.ArrayList;
import java.util.Arrays;
import java.util.Collection;
import java.util.Collections;
import java.util.HashMap;
import java.util.Iterator;
import java.util.LinkedList;
import java.util.List;
import java.util.Map;
import java.util.NoSuchElementException;
import java.util.Set;

/** Parts of lists, arrays of their elements, and a map of one's own below AbstractMap. */
public class Parts {
    /** Pairs in two arrays, in the order in which they were put. */
    static class Pairs extends AbstractMap<String, Integer> {
        private final List<String> keys = new ArrayList<>();
        private final List<Integer> values = new ArrayList<>();

        @Override
        public Integer put(String key, Integer value) {
            int place = keys.indexOf(key);
            if (place >= 0) {
                return values.set(place, value);
            }
            keys.add(key);
            values.add(value);
            return null;
        }

        @Override
        public Set<Map.Entry<String, Integer>> entrySet() {
            return new AbstractSet<Map.Entry<String, Integer>>() {
                @Override
                public int size() {
                    return keys.size();
                }

                @Override
                public Iterator<Map.Entry<String, Integer>> iterator() {
                    return entries();
                }
            };
        }

        private Iterator<Map.Entry<String, Integer>> entries() {
            return new Iterator<Map.Entry<String, Integer>>() {
                private int next;

                @Override
                public boolean hasNext() {
                    return next < keys.size();
                }

                @Override
                public Map.Entry<String, Integer> next() {
                    if (next >= keys.size()) {
                        throw new NoSuchElementException();
                    }
                    return entry(next++);
                }

                @Override
                public void remove() {
                    next--;
                    keys.remove(next);
                    values.remove(next);
                }
            };
        }

        private Map.Entry<String, Integer> entry(int place) {
            return new Map.Entry<String, Integer>() {
                @Override
                public String getKey() {
                    return keys.get(place);
                }

                @Override
                public Integer getValue() {
                    return values.get(place);
                }

                @Override
                public Integer setValue(Integer value) {
                    return values.set(place, value);
                }

                @Override
                public boolean equals(Object other) {
                    return other instanceof Map.Entry && getKey().equals(((Map.Entry<?, ?>) other).getKey())
                        && getValue().equals(((Map.Entry<?, ?>) other).getValue());
                }

                @Override
                public int hashCode() {
                    return getKey().hashCode() ^ getValue().hashCode();
                }
            };
        }
    }

    /** A map without `put`. */
    static final class Nothing extends AbstractMap<String, Integer> {
        @Override
        public Set<Map.Entry<String, Integer>> entrySet() {
            return Collections.emptySet();
        }
    }

    private static void raised(String what, Runnable change) {
        try {
            change.run();
            System.out.println(what + " nothing");
        } catch (RuntimeException raised) {
            System.out.println(what + " " + (raised instanceof IndexOutOfBoundsException ? "index" : raised instanceof IllegalArgumentException ? "argument"
                : raised instanceof UnsupportedOperationException ? "unsupported" : raised instanceof ArrayStoreException ? "store"
                : raised instanceof IllegalStateException ? "state" : raised instanceof NoSuchElementException ? "none"
                : raised instanceof NullPointerException ? "null" : raised instanceof java.util.ConcurrentModificationException ? "changed" : "other"));
        }
    }

    private static void parts(List<String> list) {
        List<String> part = list.subList(1, 4);
        System.out.println(part + " " + part.size() + part.isEmpty() + part.get(0) + part.contains("c") + part.contains("a")
            + part.indexOf("d") + part.lastIndexOf("b") + part.indexOf("x") + part.hashCode() + part.equals(Arrays.asList("b", "c", "d")) + part.equals(list) + Arrays.asList("b", "c", "d").equals(part));
        part.set(2, "D");
        part.add("e2");
        part.add(0, "b0");
        System.out.println(part.remove(1) + part.remove("c") + part.remove("zz") + list + part + Arrays.toString(part.toArray()));
        List<String> inner = part.subList(1, 2);
        System.out.println(inner + " " + inner.set(0, "in") + list);
        for (String each : part) {
            System.out.print(each + ".");
        }
        Iterator<String> each = part.iterator();
        raised("remove", each::remove);
        each.next();
        each.remove();
        System.out.println(list + " " + part + each.hasNext());
        raised("get", () -> part.get(2));
        raised("get", () -> part.get(-1));
        raised("set", () -> part.set(2, "q"));
        raised("add", () -> part.add(3, "q"));
        raised("part", () -> part.subList(0, 3));
        raised("part", () -> part.subList(-1, 1));
        raised("part", () -> part.subList(2, 1));
        raised("whole", () -> list.subList(0, 99));
        Collections.sort(part);
        Collections.reverse(part);
        System.out.println(list + " " + part);
        part.addAll(Arrays.asList("p", "q"));
        part.subList(1, 3).clear();
        System.out.println(list);
        List<String> late = list.subList(0, 2);
        list.add("more");
        raised("late", () -> late.get(0));
        raised("late", () -> late.size());
        raised("late", () -> late.iterator());
        list.subList(0, list.size()).clear();
        System.out.println(list + " " + list.isEmpty());
    }

    private static void arrays() {
        List<String> list = new ArrayList<>(Arrays.asList("x", "y", "z"));
        String[] made = list.toArray(new String[0]);
        String[] room = {"1", "2", "3", "4", "5"};
        System.out.println(made.length + made[2] + (list.toArray(room) == room) + Arrays.toString(room) + (list.toArray(new Object[1]) instanceof String[]));
        Object[] objects = made;
        System.out.println(objects instanceof String[]);
        raised("store", () -> list.toArray(new Integer[3]));
        raised("store", () -> list.toArray(new Integer[1]));
        raised("null", () -> list.toArray((String[]) null));
        Collection<Integer> numbers = new LinkedList<>(Arrays.asList(3, 1, 2));
        Integer[] boxed = numbers.toArray(new Integer[numbers.size()]);
        Number[] more = numbers.toArray(new Number[1]);
        System.out.println(boxed[0] + boxed[1] + more.length);
        String[] longer = Arrays.copyOf(made, 5);
        String[] some = Arrays.copyOfRange(made, 1, 3);
        String[][] rows = Arrays.copyOf(new String[][] {made, some}, 1);
        System.out.println(Arrays.toString(longer) + Arrays.toString(some) + rows.length + rows[0][0]);
        Object[] whole = Arrays.copyOf(objects, 1);
        System.out.println((whole instanceof String[]) + " " + whole.length);
        raised("range", () -> Arrays.copyOfRange(made, 2, 1));
        raised("range", () -> Arrays.copyOfRange(made, 4, 5));
        raised("length", () -> Arrays.copyOf((String[]) null, 1));
        System.out.println(Collections.unmodifiableList(list).subList(1, 2) + " " + Arrays.asList(1, 2, 3).subList(1, 3));
    }

    private static void map(Map<String, Integer> map) {
        System.out.println(map + " " + map.isEmpty() + map.size() + map.get("a") + map.remove("a"));
        map.put("a", 1);
        map.put("b", 2);
        map.put("a", 3);
        map.putAll(Collections.singletonMap("c", 5));
        System.out.println(map + " " + map.size() + map.get("a") + map.containsKey("b") + map.containsKey("x") + map.containsValue(5) + map.containsValue(9));
        System.out.println(map.keySet() + " " + map.values() + map.keySet().contains("b") + map.values().contains(2) + map.keySet().size());
        System.out.println(map.getOrDefault("x", 7) + map.getOrDefault("a", 7) + map.putIfAbsent("a", 8) + " " + map.putIfAbsent("d", 8) + map.remove("d", 1)
            + map.remove("d", 8) + map.replace("b", 22) + map.replace("x", 1));
        map.forEach((key, value) -> System.out.print(key + value + ";"));
        System.out.println(map.computeIfAbsent("n", String::length) + map.computeIfPresent("n", (key, value) -> value + 1)
            + map.compute("n", (key, value) -> value * 2) + map.merge("n", 5, Integer::sum) + map.merge("m", 6, Integer::sum));
        System.out.println(map.compute("n", (key, value) -> null) + " " + map + map.remove("m") + map.remove("m"));
        Map<String, Integer> same = new HashMap<>(map);
        System.out.println(map.equals(same) + " " + same.equals(map) + (map.hashCode() == same.hashCode()) + map.equals(Collections.emptyMap()));
        map.clear();
        System.out.println(map.size() + " " + map);
    }

    public static void main(String[] arguments) {
        parts(new ArrayList<>(Arrays.asList("a", "b", "c", "d", "e")));
        parts(new LinkedList<>(Arrays.asList("a", "b", "c", "d", "e")));
        arrays();
        map(new Pairs());
        Map<String, Integer> none = new Nothing();
        raised("put", () -> none.put("a", 1));
        System.out.println(none + " " + none.containsKey(null) + none.remove("a"));
    }
}
