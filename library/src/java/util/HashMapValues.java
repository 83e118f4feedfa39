package java.util;

/** The values of a HashMap. */
final class HashMapValues<E> extends AbstractCollection<E> {
    private final HashMap<?, ?> map;

    HashMapValues(HashMap<?, ?> map) {
        this.map = map;
    }

    @Override
    public Iterator<E> iterator() {
        return new HashMapIteration<E>(map, HashMapIteration.VALUES);
    }

    @Override
    public int size() {
        return map.size();
    }

    @Override
    public boolean contains(Object element) {
        return map.containsValue(element);
    }

    @Override
    public void clear() {
        map.clear();
    }
}
