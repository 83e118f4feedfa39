package java.util;

import java.io.Serializable;

/** Elements of which no two are equal: the keys of a HashMap. */
public class HashSet<E> extends AbstractSet<E> implements Cloneable, Serializable {
    private HashMap<E, Object> map;

    public HashSet() {
        map = new HashMap<E, Object>();
    }

    public HashSet(int capacity) {
        map = new HashMap<E, Object>(capacity);
    }

    public HashSet(Collection<? extends E> elements) {
        map = new HashMap<E, Object>(Math.max(elements.size() + elements.size() / 3 + 1, 16));
        addAll(elements);
    }

    @Override
    public Iterator<E> iterator() {
        return new HashMapIteration<E>(map, HashMapIteration.KEYS);
    }

    @Override
    public int size() {
        return map.size();
    }

    @Override
    public boolean contains(Object element) {
        return map.containsKey(element);
    }

    @Override
    public boolean add(E element) {
        return map.put(element, this) == null;
    }

    @Override
    public boolean remove(Object element) {
        return map.remove(element) != null;
    }

    /** A set of the same elements. */
    public Object clone() {
        HashSet<E> copy = (HashSet<E>) jop.Objects.ofKind(this, new HashSet<E>());
        copy.map = (HashMap<E, Object>) map.clone();
        return copy;
    }

    @Override
    public void clear() {
        map.clear();
    }
}
