package java.util;

import java.util.function.BiConsumer;
import java.util.function.BiFunction;
import java.util.function.Function;
import jop.CollectionMethods;
import jop.Text;
import jop.ToTextMethod;

/** Shows a map that can't be changed by this one; its values are those that there are when they are asked for. */
final class UnmodifiableMap<K, V> implements Map<K, V>, CollectionMethods, ToTextMethod {
    /** One without entries. */
    static final Map EMPTY = new UnmodifiableMap<Object, Object>(new HashMap<Object, Object>(1));

    private final HashMap<K, V> inner;

    UnmodifiableMap(HashMap<K, V> inner) {
        this.inner = inner;
    }

    @Override
    public int size() {
        return inner.size();
    }

    @Override
    public boolean isEmpty() {
        return inner.isEmpty();
    }

    @Override
    public boolean containsKey(Object key) {
        return inner.containsKey(key);
    }

    @Override
    public boolean containsValue(Object value) {
        return inner.containsValue(value);
    }

    @Override
    public V get(Object key) {
        return inner.get(key);
    }

    @Override
    public V getOrDefault(Object key, V value) {
        return inner.getOrDefault(key, value);
    }

    @Override
    public Set<K> keySet() {
        return new UnmodifiableSet<K>((AbstractSet<K>) inner.keySet());
    }

    @Override
    public Set<Map.Entry<K, V>> entrySet() {
        return new UnmodifiableSet<Map.Entry<K, V>>((AbstractSet<Map.Entry<K, V>>) inner.entrySet());
    }

    @Override
    public Collection<V> values() {
        return new UnmodifiableList<V>(new FixedList<V>(inner.values().toArray()));
    }

    @Override
    public boolean equals(Object other) {
        return other == this || inner.equals(other);
    }

    @Override
    public int hashCode() {
        return inner.hashCode();
    }

    @Override
    public Text toText() {
        return inner.toText();
    }

    @Override
    public void forEach(BiConsumer<? super K, ? super V> action) {
        inner.forEach(action);
    }

    @Override
    public V put(K key, V value) {
        throw new UnsupportedOperationException();
    }

    @Override
    public V remove(Object key) {
        throw new UnsupportedOperationException();
    }

    @Override
    public void putAll(Map<? extends K, ? extends V> entries) {
        throw new UnsupportedOperationException();
    }

    @Override
    public void clear() {
        throw new UnsupportedOperationException();
    }

    @Override
    public V putIfAbsent(K key, V value) {
        throw new UnsupportedOperationException();
    }

    @Override
    public boolean remove(Object key, Object value) {
        throw new UnsupportedOperationException();
    }

    @Override
    public V replace(K key, V value) {
        throw new UnsupportedOperationException();
    }

    @Override
    public V computeIfAbsent(K key, Function<? super K, ? extends V> value) {
        throw new UnsupportedOperationException();
    }

    @Override
    public V computeIfPresent(K key, BiFunction<? super K, ? super V, ? extends V> value) {
        throw new UnsupportedOperationException();
    }

    @Override
    public V compute(K key, BiFunction<? super K, ? super V, ? extends V> value) {
        throw new UnsupportedOperationException();
    }

    @Override
    public V merge(K key, V value, BiFunction<? super V, ? super V, ? extends V> both) {
        throw new UnsupportedOperationException();
    }
}
