package java.util;

import jop.Text;
import jop.ToTextMethod;

/** What collections have in common, over `iterator` and `size`. */
public abstract class AbstractCollection<E> implements Collection<E>, ToTextMethod {
    protected AbstractCollection() {
    }

    @Override
    public abstract Iterator<E> iterator();

    @Override
    public abstract int size();

    @Override
    public boolean isEmpty() {
        return size() == 0;
    }

    @Override
    public boolean contains(Object element) {
        Iterator<E> each = iterator();
        while (each.hasNext()) { //@WCA loop=64 elements
            if (Objects.equals(element, each.next())) {
                return true;
            }
        }
        return false;
    }

    @Override
    public Object[] toArray() {
        Object[] all = new Object[size()];
        Iterator<E> each = iterator();
        for (int i = 0; i < all.length; i++) { //@WCA loop=64 elements
            all[i] = each.next();
        }
        return all;
    }

    @Override
    public boolean add(E element) {
        throw new UnsupportedOperationException();
    }

    @Override
    public boolean remove(Object element) {
        Iterator<E> each = iterator();
        while (each.hasNext()) { //@WCA loop=64 elements
            if (Objects.equals(element, each.next())) {
                each.remove();
                return true;
            }
        }
        return false;
    }

    @Override
    public boolean addAll(Collection<? extends E> elements) {
        Object[] added = elements.toArray();
        boolean isChanged = false;
        for (int i = 0; i < added.length; i++) { //@WCA loop=64 elements
            isChanged |= add((E) added[i]);
        }
        return isChanged;
    }

    @Override
    public void clear() {
        Iterator<E> each = iterator();
        while (each.hasNext()) { //@WCA loop=64 elements
            each.next();
            each.remove();
        }
    }

    @Override
    public Text toText() {
        return Arrays.toString(toArray());
    }
}
