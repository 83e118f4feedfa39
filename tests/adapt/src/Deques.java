import java.util.ArrayDeque;
import java.util.Arrays;
import java.util.Collection;
import java.util.ConcurrentModificationException;
import java.util.Deque;
import java.util.Iterator;
import java.util.LinkedList;
import java.util.NoSuchElementException;
import java.util.Queue;

/** Elements with two ends, by random steps. */
public class Deques {
    private static int seed = 5;

    private static int next(int below) {
        seed = seed * 1103515245 + 12345;
        return (seed >>> 16 & 0x7fff) % below;
    }

    private static Object step(Deque<Integer> to, int kind, Integer value) {
        switch (kind) {
            case 0: to.addFirst(value); return "";
            case 1: to.addLast(value); return "";
            case 2: return to.offer(value);
            case 3: return to.offerFirst(value);
            case 4: return to.offerLast(value);
            case 5: to.push(value); return "";
            case 6: return to.add(value);
            case 7: return to.removeFirst();
            case 8: return to.removeLast();
            case 9: return to.pollFirst();
            case 10: return to.pollLast();
            case 11: return to.poll();
            case 12: return to.pop();
            case 13: return to.remove();
            case 14: return to.getFirst();
            case 15: return to.getLast();
            case 16: return to.element();
            case 17: return to.peek();
            case 18: return to.peekFirst() + " " + to.peekLast();
            case 19: return to.removeFirstOccurrence(value);
            case 20: return to.removeLastOccurrence(value);
            case 21: return to.remove(value);
            case 22: return to.contains(value) + " " + to.isEmpty();
            case 23: return to.addAll(Arrays.asList(value, 1, 2));
            default: return backwards(to, value);
        }
    }

    private static Object backwards(Deque<Integer> to, Integer value) {
        String all = "";
        for (Iterator<Integer> each = to.descendingIterator(); each.hasNext();) {
            Integer one = each.next();
            all += one + " ";
            if (one.equals(value)) {
                each.remove();
            }
        }
        for (Iterator<Integer> each = to.iterator(); each.hasNext();) {
            if (each.next() == 3) {
                each.remove();
            }
        }
        return all;
    }

    private static void steps(Deque<Integer> to, int count) {
        for (int k = 0; k < count; k++) {
            int kind = next(3) == 0 ? 7 + next(18) : next(25);
            Integer value = next(9);
            try {
                System.out.print(kind + " " + step(to, kind, value) + "; ");
            } catch (NoSuchElementException raised) {
                System.out.print(kind + " none; ");
            }
            if (k % 6 == 0) {
                System.out.println(to + " " + to.size() + Arrays.toString(to.toArray()));
            }
        }
        to.clear();
        System.out.println(to);
    }

    private static void lists(LinkedList<Integer> list) {
        list.add(0, 7);
        list.add(1, 8);
        list.add(1, 9);
        System.out.println(list + " " + list.get(1) + list.set(2, 5) + list.remove(0) + list.indexOf(5) + list.lastIndexOf(6) + list.hashCode());
        System.out.println(list.equals(Arrays.asList(9, 5)) + " " + new LinkedList<>(list).equals(list) + list.contains(5));
        for (int place = -1; place < 4; place += 4) {
            try {
                list.get(place);
            } catch (IndexOutOfBoundsException raised) {
                System.out.println("outside");
            }
            try {
                list.add(place, 1);
            } catch (IndexOutOfBoundsException raised) {
                System.out.println("outside");
            }
        }
    }

    private static void changed(Collection<Integer> all) {
        all.addAll(Arrays.asList(1, 2, 3, 4));
        try {
            for (Integer each : all) {
                System.out.print(each);
                all.remove(each);
            }
            System.out.println(" unseen");
        } catch (ConcurrentModificationException raised) {
            System.out.println(" changed");
        }
        try {
            all.iterator().remove();
        } catch (IllegalStateException raised) {
            System.out.println("nothing given");
        }
    }

    private static void grow(Deque<Integer> to) {
        for (int k = 0; k < 40; k++) {
            to.addFirst(k);
            to.addLast(-k);
        }
        System.out.println(to + " " + to.size() + to.peekFirst() + to.peekLast());
    }

    public static void main(String[] arguments) {
        grow(new ArrayDeque<>());
        grow(new LinkedList<>());
        steps(new ArrayDeque<>(), 400);
        steps(new LinkedList<>(), 400);
        lists(new LinkedList<>());
        changed(new LinkedList<>());
        Queue<Integer> queue = new ArrayDeque<>(Arrays.asList(3, 1, 2));
        queue.offer(4);
        System.out.println(queue.poll() + " " + queue.peek() + new ArrayDeque<Integer>(3));
        try {
            new ArrayDeque<Integer>().addFirst(null);
        } catch (NullPointerException raised) {
            System.out.println("null");
        }
        LinkedList<Integer> holes = new LinkedList<>();
        holes.add(null);
        System.out.println(holes + " " + holes.indexOf(null));
    }
}
