import java.io.Serializable;
import java.util.Arrays;

/** Arrays of objects in their own order, and what texts stand below, in a program that makes strings. */
public class Sorted {
    static final class Size implements Comparable<Size> {
        private final int size;

        Size(int size) {
            this.size = size;
        }

        public int compareTo(Size other) {
            return Integer.compare(size, other.size);
        }

        @Override
        public String toString() {
            return "size " + size;
        }
    }

    @SafeVarargs
    private static <T> String classes(T... all) {
        String text = "";
        for (T each : all) {
            text += (each instanceof Serializable) + " " + (each instanceof Comparable) + " " + (each instanceof CharSequence) + ";";
        }
        return text;
    }

    public static void main(String[] arguments) {
        String[] names = {"pear", "fig", "apple" + arguments.length, "date", "", "pea"};
        Arrays.sort(names);
        System.out.println(Arrays.toString(names));
        Integer[] numbers = {5, -3, 9, 0, Integer.MIN_VALUE};
        Arrays.sort(numbers, 1, 4);
        System.out.println(Arrays.toString(numbers));
        Size[] sizes = {new Size(3), new Size(1), new Size(2)};
        Arrays.sort(sizes);
        System.out.println(Arrays.toString(sizes));
        Object[] mixed = {"a", 1};
        try {
            Arrays.sort(mixed);
        } catch (ClassCastException raised) {
            System.out.println("not of one class");
        }
        System.out.println(classes("a", 1, 'c', 2L, true));
        Serializable[] kept = {names[1], 4, "lit"};
        CharSequence[] chars = {names[2], "lit", new StringBuilder("b")};
        Comparable<?>[] ordered = {names[3], 'x'};
        System.out.println(kept.length + chars[0].length() + chars[1].charAt(2) + chars[2].length() + ordered.length);
        Runnable marked = (Runnable & Serializable) () -> System.out.println("run");
        Runnable plain = () -> System.out.println("plain");
        Runnable twice = (Runnable & Serializable & Cloneable) () -> System.out.println("twice");
        System.out.println(marked instanceof Serializable);
        System.out.println(plain instanceof Serializable);
        System.out.println(twice instanceof Cloneable && twice instanceof Serializable);
        marked.run();
        plain.run();
        twice.run();
    }
}
