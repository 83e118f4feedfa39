import java.util.Comparator;

/** A heap by hand over a Comparator, and objects with an order of their own. */
public class Heaps {
    static final class Task implements Comparable<Task> {
        final String name;
        final int due;

        Task(String name, int due) {
            this.name = name;
            this.due = due;
        }

        @Override
        public int compareTo(Task other) {
            return due - other.due;
        }
    }

    static final class Heap<T> {
        private final Object[] items;
        private final Comparator<T> order;
        private int size;

        Heap(int most, Comparator<T> order) {
            this.items = new Object[most];
            this.order = order;
        }

        @SuppressWarnings("unchecked")
        private boolean isBefore(int one, int two) {
            return order.compare((T) items[one], (T) items[two]) < 0;
        }

        private void swap(int one, int two) {
            Object item = items[one];
            items[one] = items[two];
            items[two] = item;
        }

        void add(T item) {
            items[size] = item;
            for (int k = size++; k > 0 && isBefore(k, (k - 1) / 2); k = (k - 1) / 2) {
                swap(k, (k - 1) / 2);
            }
        }

        @SuppressWarnings("unchecked")
        T take() {
            T least = (T) items[0];
            items[0] = items[--size];
            int k = 0;
            while (2 * k + 1 < size) {
                int child = 2 * k + 2 < size && isBefore(2 * k + 2, 2 * k + 1) ? 2 * k + 2 : 2 * k + 1;
                if (!isBefore(child, k)) {
                    break;
                }
                swap(k, child);
                k = child;
            }
            return least;
        }
    }

    static <T extends Comparable<T>> T greatest(T[] all) {
        T greatest = all[0];
        for (T each : all) {
            greatest = each.compareTo(greatest) > 0 ? each : greatest;
        }
        return greatest;
    }

    public static void main(String[] args) {
        Task[] tasks = {new Task("wash", 5), new Task("cook", 2), new Task("shop", 1), new Task("read", 9), new Task("rest", 7)};
        Heap<Task> byDue = new Heap<>(8, (one, two) -> one.compareTo(two));
        Heap<Task> byName = new Heap<>(8, new Comparator<Task>() {
            @Override
            public int compare(Task one, Task two) {
                return one.name.compareTo(two.name);
            }
        });
        for (Task task : tasks) {
            byDue.add(task);
            byName.add(task);
        }
        for (int k = 0; k < tasks.length; k++) {
            System.out.println(byDue.take().name + " " + byName.take().name);
        }
        System.out.println(greatest(tasks).name + " " + greatest(new String[] {"b", "c", "a"}));
    }
}
