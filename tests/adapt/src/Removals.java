import java.util.ArrayList;
import java.util.Arrays;
import java.util.ConcurrentModificationException;
import java.util.Iterator;
import java.util.List;

/** Elements that are removed by an iterator. */
public class Removals {
    private static void removeShort(List<String> list) {
        for (Iterator<String> each = list.iterator(); each.hasNext();) {
            if (each.next().length() < 4) {
                each.remove();
            }
        }
        System.out.println(list);
    }

    private static String kind(Runnable change) {
        try {
            change.run();
            return "nothing raised";
        } catch (ConcurrentModificationException raised) {
            return "changed";
        } catch (UnsupportedOperationException raised) {
            return "unsupported";
        } catch (IllegalStateException raised) {
            return "no element";
        }
    }

    public static void main(String[] arguments) {
        removeShort(new ArrayList<>(Arrays.asList("one", "three", "two", "four", "six")));
        removeShort(new ArrayList<>(Arrays.asList("three", "four")));
        removeShort(new ArrayList<>());
        ArrayList<String> list = new ArrayList<>(Arrays.asList("a", "b", "c", "d"));
        Iterator<String> each = list.iterator();
        System.out.println(kind(each::remove));
        each.next();
        each.next();
        System.out.println(kind(each::remove) + " " + list);
        System.out.println(kind(each::remove) + " " + list);
        System.out.println(each.next() + list);
        list.add("e");
        System.out.println(kind(each::remove) + " " + list);
        Iterator<String> fixed = Arrays.asList("x", "y").iterator();
        System.out.println(kind(fixed::remove));
        System.out.println(fixed.next() + kind(fixed::remove));
        Iterator<Integer> own = new Iterator<Integer>() {
            private int left = 3;

            public boolean hasNext() {
                return left > 0;
            }

            public Integer next() {
                return left--;
            }
        };
        System.out.println(own.next() + kind(own::remove));
    }
}
