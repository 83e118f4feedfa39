package java.util;

import jop.CollectionMethods;
import jop.Text;
import jop.ToTextMethod;

/** An entry of a HashMap, in the list of its cell. */
final class HashMapEntry<K, V> implements Map.Entry<K, V>, CollectionMethods, ToTextMethod {
    final int hash;
    final K key;
    V value;
    HashMapEntry<K, V> next;

    HashMapEntry(int hash, K key, V value) {
        this.hash = hash;
        this.key = key;
        this.value = value;
    }

    @Override
    public K getKey() {
        return key;
    }

    @Override
    public V getValue() {
        return value;
    }

    @Override
    public V setValue(V value) {
        V old = this.value;
        this.value = value;
        return old;
    }

    @Override
    public boolean equals(Object other) {
        if (!(other instanceof Map.Entry)) {
            return false;
        }
        Map.Entry<?, ?> entry = (Map.Entry<?, ?>) other;
        return Objects.equals(key, entry.getKey()) && Objects.equals(value, entry.getValue());
    }

    @Override
    public int hashCode() {
        return Objects.hashCode(key) ^ Objects.hashCode(value);
    }

    @Override
    public Text toText() {
        return new StringBuilder().append(key).append('=').append(value).toText();
    }
}
