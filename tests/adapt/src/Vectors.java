import java.util.Arrays;
import java.util.Collections;
import java.util.ConcurrentModificationException;
import java.util.EmptyStackException;
import java.util.Enumeration;
import java.util.Iterator;
import java.util.NoSuchElementException;
import java.util.Stack;
import java.util.Vector;

/** Vectors, and stacks over them. */
public class Vectors {
    private static final class Own extends Stack<String> {
        private int added;

        @Override
        public void addElement(String element) {
            added++;
            super.addElement(element);
        }

        int first() {
            return elementCount * 100 + elementData.length + added + capacityIncrement;
        }
    }

    private static void raised(Runnable change) {
        try {
            change.run();
            System.out.print("nothing ");
        } catch (IndexOutOfBoundsException raised) {
            System.out.print("index ");
        } catch (EmptyStackException raised) {
            System.out.print("empty ");
        } catch (NoSuchElementException raised) {
            System.out.print("no element ");
        } catch (ConcurrentModificationException raised) {
            System.out.print("changed ");
        } catch (IllegalArgumentException raised) {
            System.out.print("argument ");
        }
    }

    private static void vectors() {
        Vector<String> all = new Vector<>(2, 3);
        all.addElement("a");
        all.add("b" + all.size());
        all.insertElementAt("c", 1);
        all.add(0, "literal");
        System.out.println(all + " " + all.capacity() + all.size() + all.isEmpty() + all.elementAt(2) + all.get(3) + all.firstElement() + all.lastElement());
        all.addAll(Arrays.asList("a", "x", null));
        all.setElementAt("y", 5);
        System.out.println(all.set(0, "z") + all + all.indexOf("a") + all.indexOf("a", 2) + all.lastIndexOf("a") + all.lastIndexOf("a", 3) + all.indexOf(null)
            + all.contains("q") + all.capacity());
        System.out.println(all.remove("a") + "" + all.removeElement("q") + all.remove(1) + all + all.hashCode() + all.equals(Arrays.asList(all.toArray())));
        all.removeElementAt(0);
        for (Enumeration<String> each = all.elements(); each.hasMoreElements();) {
            System.out.print(each.nextElement() + ",");
        }
        for (String each : all) {
            System.out.print(each + ";");
        }
        Object[] to = new Object[5];
        all.copyInto(to);
        System.out.println(Arrays.toString(to));
        raised(() -> all.elementAt(9));
        raised(() -> all.get(-1));
        raised(() -> all.setElementAt("x", 8));
        raised(() -> all.insertElementAt("x", 8));
        raised(() -> all.removeElementAt(-1));
        raised(() -> all.remove(8));
        raised(() -> all.lastIndexOf("x", 8));
        raised(() -> new Vector<>(-1));
        raised(() -> all.copyInto(new Object[1]));
        raised(() -> new Vector<>().firstElement());
        raised(() -> new Vector<>().lastElement());
        raised(() -> new Vector<>().elements().nextElement());
        Iterator<String> stale = all.iterator();
        all.ensureCapacity(40);
        raised(stale::next);
        System.out.println(all.capacity());
        @SuppressWarnings("unchecked")
        Vector<String> copy = (Vector<String>) all.clone();
        all.setSize(2);
        copy.trimToSize();
        all.setSize(3);
        System.out.println(all + " " + copy + copy.capacity() + new Vector<>(copy) + new Vector<>(4).capacity());
        all.clear();
        copy.removeAllElements();
        System.out.println(all.equals(copy) + " " + all + Collections.unmodifiableList(copy));
    }

    public static void main(String[] arguments) {
        vectors();
        Own own = new Own();
        raised(own::pop);
        raised(own::peek);
        for (int k = 0; k < 12; k++) {
            own.push("p" + k);
        }
        own.add("last");
        System.out.println(own.peek() + own.pop() + own.search("p3") + own.search("last") + own.empty() + own.first() + own.subList(0, 3) + own.size());
        Own other = (Own) own.clone();
        other.clear();
        System.out.println(other.empty() + " " + other.first() + own.lastElement());
    }
}
