package java.util;

import java.util.function.BiConsumer;
import java.util.function.BiFunction;
import java.util.function.Function;
import jop.CollectionMethods;
import jop.Text;
import jop.ToTextMethod;

/** What maps have in common, over `entrySet`; those that change override `put`, and their sets of entries have iterators that remove. */
public abstract class AbstractMap<K, V> implements Map<K, V>, CollectionMethods, ToTextMethod {
    protected AbstractMap() {
    }

    @Override
    public abstract Set<Map.Entry<K, V>> entrySet();

    /** The entry of a key, or null. */
    private Map.Entry<K, V> entry(Object key) {
        Iterator<Map.Entry<K, V>> each = entrySet().iterator();
        while (each.hasNext()) { //@WCA loop=64 elements
            Map.Entry<K, V> entry = each.next();
            if (Objects.equals(key, entry.getKey())) {
                return entry;
            }
        }
        return null;
    }

    @Override
    public int size() {
        return entrySet().size();
    }

    @Override
    public boolean isEmpty() {
        return size() == 0;
    }

    @Override
    public boolean containsKey(Object key) {
        return entry(key) != null;
    }

    @Override
    public boolean containsValue(Object value) {
        return values().contains(value);
    }

    @Override
    public V get(Object key) {
        Map.Entry<K, V> found = entry(key);
        return found == null ? null : found.getValue();
    }

    @Override
    public V put(K key, V value) {
        throw new UnsupportedOperationException();
    }

    @Override
    public V remove(Object key) {
        Iterator<Map.Entry<K, V>> each = entrySet().iterator();
        while (each.hasNext()) { //@WCA loop=64 elements
            Map.Entry<K, V> entry = each.next();
            if (Objects.equals(key, entry.getKey())) {
                V removed = entry.getValue();
                each.remove();
                return removed;
            }
        }
        return null;
    }

    @Override
    public void putAll(Map<? extends K, ? extends V> entries) {
        Object[] all = entries.entrySet().toArray();
        for (int i = 0; i < all.length; i++) { //@WCA loop=64 elements
            Map.Entry<K, V> entry = (Map.Entry<K, V>) all[i];
            put(entry.getKey(), entry.getValue());
        }
    }

    @Override
    public void clear() {
        entrySet().clear();
    }

    /** The keys that there are now. */
    @Override
    public Set<K> keySet() {
        return new FixedSet<K>(parts(true));
    }

    /** The values that there are now. */
    @Override
    public Collection<V> values() {
        return new UnmodifiableList<V>(new FixedList<V>(parts(false)));
    }

    private Object[] parts(boolean isOfKeys) {
        Object[] all = entrySet().toArray();
        for (int i = 0; i < all.length; i++) { //@WCA loop=64 elements
            Map.Entry<K, V> entry = (Map.Entry<K, V>) all[i];
            all[i] = isOfKeys ? entry.getKey() : entry.getValue();
        }
        return all;
    }

    @Override
    public V getOrDefault(Object key, V value) {
        V found = get(key);
        return found != null || containsKey(key) ? found : value;
    }

    @Override
    public V putIfAbsent(K key, V value) {
        V found = get(key);
        return found == null ? put(key, value) : found;
    }

    @Override
    public boolean remove(Object key, Object value) {
        Map.Entry<K, V> found = entry(key);
        if (found == null || !Objects.equals(value, found.getValue())) {
            return false;
        }
        remove(key);
        return true;
    }

    @Override
    public V replace(K key, V value) {
        return containsKey(key) ? put(key, value) : null;
    }

    @Override
    public void forEach(BiConsumer<? super K, ? super V> action) {
        Objects.requireNonNull(action);
        Iterator<Map.Entry<K, V>> each = entrySet().iterator();
        while (each.hasNext()) { //@WCA loop=64 elements
            Map.Entry<K, V> entry = each.next();
            action.accept(entry.getKey(), entry.getValue());
        }
    }

    @Override
    public V computeIfAbsent(K key, Function<? super K, ? extends V> value) {
        Objects.requireNonNull(value);
        V found = get(key);
        return found != null ? found : kept(key, value.apply(key));
    }

    @Override
    public V computeIfPresent(K key, BiFunction<? super K, ? super V, ? extends V> value) {
        Objects.requireNonNull(value);
        V found = get(key);
        return found == null ? null : keptOrRemoved(key, value.apply(key, found));
    }

    @Override
    public V compute(K key, BiFunction<? super K, ? super V, ? extends V> value) {
        Objects.requireNonNull(value);
        return keptOrRemoved(key, value.apply(key, get(key)));
    }

    @Override
    public V merge(K key, V value, BiFunction<? super V, ? super V, ? extends V> both) {
        Objects.requireNonNull(value);
        Objects.requireNonNull(both);
        V found = get(key);
        return keptOrRemoved(key, found == null ? value : both.apply(found, value));
    }

    private V kept(K key, V value) {
        if (value != null) {
            put(key, value);
        }
        return value;
    }

    private V keptOrRemoved(K key, V value) {
        if (value == null) {
            remove(key);
        }
        return kept(key, value);
    }

    /** Whether the other object is a map of as many entries, of which this one has each. */
    @Override
    public boolean equals(Object other) {
        return other == this || other instanceof Map && Objects.equals(entrySet(), ((Map<?, ?>) other).entrySet());
    }

    @Override
    public int hashCode() {
        return Objects.hashCode(entrySet());
    }

    @Override
    public Text toText() {
        StringBuilder text = new StringBuilder().append('{');
        Iterator<Map.Entry<K, V>> each = entrySet().iterator();
        while (each.hasNext()) { //@WCA loop=64 elements
            Map.Entry<K, V> entry = each.next();
            text.append(entry.getKey()).append('=').append(entry.getValue());
            if (each.hasNext()) {
                text.append(", ");
            }
        }
        return text.append('}').toText();
    }
}
