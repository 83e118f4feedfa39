package java.util;

/** The keys or the entries of a HashMap as a set. */
final class HashMapView<E> extends AbstractSet<E> {
    private final HashMap<?, ?> map;
    private final int kind;

    HashMapView(HashMap<?, ?> map, int kind) {
        this.map = map;
        this.kind = kind;
    }

    @Override
    public Iterator<E> iterator() {
        return new HashMapIteration<E>(map, kind);
    }

    @Override
    public int size() {
        return map.size();
    }

    @Override
    public boolean contains(Object element) {
        return kind == HashMapIteration.KEYS ? map.containsKey(element) : held(element) != null;
    }

    @Override
    public boolean remove(Object element) {
        if (!contains(element)) {
            return false;
        }
        map.remove(kind == HashMapIteration.KEYS ? element : ((Map.Entry<?, ?>) element).getKey());
        return true;
    }

    /** The entry that equals an object; null where there is none. */
    private Map.Entry<?, ?> held(Object element) {
        HashMapEntry<?, ?> entry = element instanceof Map.Entry ? map.entry(((Map.Entry<?, ?>) element).getKey()) : null;
        return entry != null && Objects.equals(entry.value, ((Map.Entry<?, ?>) element).getValue()) ? entry : null;
    }

    @Override
    public void clear() {
        map.clear();
    }
}
