import java.util.AbstractSequentialList;
import java.util.ArrayList;
import java.util.Arrays;
import java.util.Collections;
import java.util.ConcurrentModificationException;
import java.util.LinkedList;
import java.util.List;
import java.util.ListIterator;
import java.util.NoSuchElementException;

/** Iterators of lists in both directions, and a list that finds its elements by them. */
public class Sequences {
    private static final class Cell {
        String value;
        Cell before;
        Cell after;
    }

    /** A chain of cells that goes round. */
    private static final class Chain extends AbstractSequentialList<String> {
        private final Cell head = new Cell();
        private int count;

        Chain() {
            head.before = head;
            head.after = head;
        }

        @Override
        public int size() {
            return count;
        }

        @Override
        public ListIterator<String> listIterator(int place) {
            if (place < 0 || place > count) {
                throw new IndexOutOfBoundsException("no place " + place);
            }
            return new Walk(place);
        }

        private final class Walk implements ListIterator<String> {
            private Cell next = head.after;
            private Cell last;
            private int place;

            Walk(int from) {
                while (place < from) {
                    next = next.after;
                    place++;
                }
            }

            @Override
            public boolean hasNext() {
                return place < count;
            }

            @Override
            public String next() {
                if (!hasNext()) {
                    throw new NoSuchElementException();
                }
                last = next;
                next = next.after;
                place++;
                return last.value;
            }

            @Override
            public boolean hasPrevious() {
                return place > 0;
            }

            @Override
            public String previous() {
                if (!hasPrevious()) {
                    throw new NoSuchElementException();
                }
                next = next.before;
                last = next;
                place--;
                return last.value;
            }

            @Override
            public int nextIndex() {
                return place;
            }

            @Override
            public int previousIndex() {
                return place - 1;
            }

            @Override
            public void remove() {
                if (last == null) {
                    throw new IllegalStateException();
                }
                last.before.after = last.after;
                last.after.before = last.before;
                if (next == last) {
                    next = last.after;
                } else {
                    place--;
                }
                last = null;
                count--;
                modCount++;
            }

            @Override
            public void set(String value) {
                last.value = value;
            }

            @Override
            public void add(String value) {
                Cell made = new Cell();
                made.value = value;
                made.before = next.before;
                made.after = next;
                made.before.after = made;
                next.before = made;
                last = null;
                place++;
                count++;
                modCount++;
            }
        }
    }

    private static void raised(Runnable change) {
        try {
            change.run();
            System.out.print("nothing ");
        } catch (IndexOutOfBoundsException raised) {
            System.out.print("index ");
        } catch (NoSuchElementException raised) {
            System.out.print("no element ");
        } catch (ConcurrentModificationException raised) {
            System.out.print("changed ");
        } catch (IllegalStateException raised) {
            System.out.print("state ");
        } catch (UnsupportedOperationException raised) {
            System.out.print("unsupported ");
        }
    }

    private static void chain() {
        Chain chain = new Chain();
        chain.add("c");
        chain.add(0, "a");
        chain.add(1, "b" + chain.size());
        System.out.println(chain + " " + chain.size() + chain.get(1) + chain.indexOf("c") + chain.lastIndexOf("b2") + chain.contains("q") + chain.isEmpty());
        System.out.println(chain.set(1, "z") + chain.remove(0) + chain.remove("c") + chain + chain.remove("c"));
        chain.addAll(Arrays.asList("p", "q", "r"));
        chain.addAll(1, Arrays.asList("1", "2"));
        System.out.println(chain + " " + chain.equals(Arrays.asList("z", "1", "2", "p", "q", "r")) + (chain.hashCode() == new ArrayList<>(chain).hashCode()));
        raised(() -> chain.get(6));
        raised(() -> chain.get(-1));
        raised(() -> chain.set(6, "x"));
        raised(() -> chain.add(7, "x"));
        raised(() -> chain.remove(6));
        Collections.sort(chain);
        Collections.reverse(chain);
        System.out.println(chain + " " + Arrays.toString(chain.toArray(new String[0])) + chain.subList(1, 3) + Collections.unmodifiableList(chain));
        for (String each : chain) {
            System.out.print(each + ";");
        }
        ListIterator<String> all = chain.listIterator();
        while (all.hasNext()) {
            String each = all.next();
            if (each.compareTo("5") < 0) {
                all.remove();
            } else {
                all.set(each + each);
            }
        }
        System.out.println(chain);
        chain.clear();
        System.out.println(chain + " " + chain.isEmpty());
    }

    private static void both(List<String> list) {
        ListIterator<String> each = list.listIterator(1);
        System.out.print(each.nextIndex() + each.next() + each.previousIndex() + each.hasPrevious() + each.hasNext() + " ");
        each.set("set");
        each.add("more" + each.nextIndex());
        raised(each::remove);
        raised(() -> each.set("x"));
        System.out.print(each.previous() + each.previous() + each.nextIndex());
        each.remove();
        System.out.println(each.previous() + each.hasPrevious() + list);
        raised(each::previous);
        each.next();
        each.next();
        while (each.hasNext()) {
            System.out.print(each.next() + each.nextIndex());
        }
        raised(each::next);
        raised(() -> list.listIterator(-1));
        raised(() -> list.listIterator(list.size() + 1));
        ListIterator<String> stale = list.listIterator(list.size());
        list.add("late");
        raised(stale::previous);
        raised(stale::next);
        raised(() -> stale.add("x"));
        raised(stale::remove);
        System.out.println(list);
    }

    private static void fixed() {
        List<String> own = new ArrayList<>(Arrays.asList("a", "b", "c"));
        ListIterator<String> shown = Collections.unmodifiableList(own).listIterator(2);
        System.out.print(shown.next() + shown.hasNext() + shown.previous() + shown.previous() + shown.previousIndex() + shown.nextIndex() + shown.hasPrevious());
        raised(() -> shown.set("x"));
        raised(() -> shown.add("x"));
        raised(shown::remove);
        shown.previous();
        raised(shown::previous);
        System.out.println(Collections.unmodifiableList(own).listIterator().next());
        ListIterator<String> array = Arrays.asList("p", "q").listIterator();
        array.next();
        array.set("s");
        raised(array::remove);
        raised(() -> array.add("x"));
        System.out.println(array.previous());
        List<String> part = own.subList(1, 3);
        both(part);
        System.out.println(own + " " + part.listIterator().next());
    }

    public static void main(String[] arguments) {
        chain();
        both(new ArrayList<>(Arrays.asList("a", "b", "c")));
        both(new LinkedList<>(Arrays.asList("a", "b" + arguments.length, "c", "d")));
        fixed();
    }
}
