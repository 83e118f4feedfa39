package java.util;

import java.util.function.BiConsumer;
import java.util.function.BiFunction;
import java.util.function.Function;

/** Values by keys. */
public interface Map<K, V> {
    int size();

    boolean isEmpty();

    boolean containsKey(Object key);

    boolean containsValue(Object value);

    V get(Object key);

    V put(K key, V value);

    V remove(Object key);

    void putAll(Map<? extends K, ? extends V> entries);

    void clear();

    Set<K> keySet();

    Collection<V> values();

    Set<Map.Entry<K, V>> entrySet();

    V getOrDefault(Object key, V value);

    V putIfAbsent(K key, V value);

    boolean remove(Object key, Object value);

    V replace(K key, V value);

    void forEach(BiConsumer<? super K, ? super V> action);

    V computeIfAbsent(K key, Function<? super K, ? extends V> value);

    V computeIfPresent(K key, BiFunction<? super K, ? super V, ? extends V> value);

    V compute(K key, BiFunction<? super K, ? super V, ? extends V> value);

    V merge(K key, V value, BiFunction<? super V, ? super V, ? extends V> both);

    /** A key and its value. */
    interface Entry<K, V> {
        K getKey();

        V getValue();

        V setValue(V value);
    }
}
