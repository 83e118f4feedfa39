package java.util;

import java.io.Serializable;
import java.util.function.BiConsumer;
import java.util.function.BiFunction;
import java.util.function.Function;
import jop.Capacity;
import jop.CollectionMethods;
import jop.Keys;
import jop.Text;
import jop.ToTextMethod;

/**
 * Values by keys, in cells by their hashes, which are doubled where three of four are taken, so that the order is that of a virtual machine, as
 * long as no cell has more than eight entries. It holds at most `Capacity.entries()` entries, and raises IllegalStateException beyond them.
 */
public class HashMap<K, V> implements Map<K, V>, Cloneable, Serializable, CollectionMethods, ToTextMethod {
    /** How often entries were added or removed. */
    int modCount;
    /** Lists of entries, as many as a power of two; null before the first one is put. */
    HashMapEntry<K, V>[] cells;
    /** How many cells there are at first; 0 where nobody has said. */
    private int first;
    private int count;

    public HashMap() {
    }

    /** With as many cells. Raises IllegalStateException where a map has no so many. */
    public HashMap(int capacity) {
        if (capacity < 0) {
            throw new IllegalArgumentException();
        }
        first = cellsFor(capacity);
    }

    public HashMap(Map<? extends K, ? extends V> entries) {
        putEntries(entries);
    }

    /** The least power of two that isn't below a number. Raises IllegalStateException where a map has no so many cells. */
    private static int cellsFor(int least) {
        int cells = least <= 1 ? 1 : Integer.highestOneBit(least - 1) << 1;
        if (cells <= 0 || cells > Capacity.cells()) {
            throw new IllegalStateException();
        }
        return cells;
    }

    @Override
    public int size() {
        return count;
    }

    @Override
    public boolean isEmpty() {
        return count == 0;
    }

    /** The entry of a key, or null. */
    HashMapEntry<K, V> entry(Object key) {
        int hash = Keys.hashCode(key);
        HashMapEntry<K, V> each = cells == null ? null : cells[hash & cells.length - 1];
        while (each != null) { //@WCA loop=64 entries
            if (each.hash == hash && Keys.equals(key, each.key)) {
                return each;
            }
            each = each.next;
        }
        return null;
    }

    @Override
    public boolean containsKey(Object key) {
        return entry(key) != null;
    }

    @Override
    public V get(Object key) {
        HashMapEntry<K, V> found = entry(key);
        return found == null ? null : found.value;
    }

    @Override
    public V put(K key, V value) {
        return putEntry(key, value);
    }

    private V putEntry(K key, V value) {
        HashMapEntry<K, V> found = entry(key);
        if (found != null) {
            return found.setValue(value);
        }
        add(key, value);
        return null;
    }

    /** Adds an entry of a key that isn't there, behind the others of its cell. */
    private void add(K key, V value) {
        Capacity.check(count);
        if (cells == null) {
            makeCells();
        }
        if (append(new HashMapEntry<K, V>(Keys.hashCode(key), key, value)) >= 8) {
            growSmall();
        }
        modCount++;
        count++;
        if (count > limit()) {
            grow();
        }
    }

    private void makeCells() {
        cells = new HashMapEntry[first == 0 ? 16 : first];
    }

    /** Doubles cells of which one has many entries, where they are few. */
    private void growSmall() {
        if (cells.length < 64 && cells.length < Capacity.cells()) {
            grow();
        }
    }

    /** Makes room for what `compute` and the like may add. */
    private void prepare() {
        if (cells == null) {
            makeCells();
        } else if (count > limit()) {
            grow();
        }
    }

    /** Adds an entry of a key that isn't there, before the others of its cell. */
    private void addFirst(K key, V value) {
        Capacity.check(count);
        HashMapEntry<K, V> added = new HashMapEntry<K, V>(Keys.hashCode(key), key, value);
        int place = added.hash & cells.length - 1;
        added.next = cells[place];
        cells[place] = added;
        modCount++;
        count++;
        if (length(added.next) >= 7) {
            growSmall();
        }
    }

    private static int length(HashMapEntry<?, ?> from) {
        int length = 0;
        for (HashMapEntry<?, ?> each = from; each != null; each = each.next) { //@WCA loop=64 entries
            length++;
        }
        return length;
    }

    /** How many entries there are at most before the cells are doubled. */
    private int limit() {
        return cells.length - (cells.length + 3 >> 2);
    }

    /** Puts an entry behind the last one of its cell; gives how many there were. */
    private int append(HashMapEntry<K, V> entry) {
        int place = entry.hash & cells.length - 1;
        HashMapEntry<K, V> last = cells[place];
        if (last == null) {
            cells[place] = entry;
            return 0;
        }
        int length = 1;
        while (last.next != null) { //@WCA loop=64 entries
            last = last.next;
            length++;
        }
        last.next = entry;
        return length;
    }

    /** Doubles the cells; entries of one cell stay in their order. */
    private void grow() {
        HashMapEntry<K, V>[] old = cells;
        cells = new HashMapEntry[2 * old.length];
        HashMapEntry<K, V> each = null;
        HashMapEntry<K, V> low = null;
        HashMapEntry<K, V> high = null;
        int place = 0;
        while (each != null || place < old.length) { //@WCA loop=128 cells
            if (each == null) {
                each = old[place];
                place++;
                low = null;
                high = null;
            } else {
                HashMapEntry<K, V> next = each.next;
                each.next = null;
                if ((each.hash & old.length) == 0) {
                    put(place - 1, low, each);
                    low = each;
                } else {
                    put(place - 1 + old.length, high, each);
                    high = each;
                }
                each = next;
            }
        }
    }

    /** Puts an entry into a cell, behind the last one there, if any. */
    private void put(int place, HashMapEntry<K, V> last, HashMapEntry<K, V> entry) {
        if (last == null) {
            cells[place] = entry;
        } else {
            last.next = entry;
        }
    }

    @Override
    public V remove(Object key) {
        HashMapEntry<K, V> found = entry(key);
        if (found == null) {
            return null;
        }
        int place = found.hash & cells.length - 1;
        if (cells[place] == found) {
            cells[place] = found.next;
        } else {
            HashMapEntry<K, V> before = cells[place];
            while (before.next != found) { //@WCA loop=64 entries
                before = before.next;
            }
            before.next = found.next;
        }
        modCount++;
        count--;
        return found.value;
    }

    @Override
    public void putAll(Map<? extends K, ? extends V> entries) {
        putEntries(entries);
    }

    /** A map of the same entries. */
    public Object clone() {
        HashMap<K, V> copy = (HashMap<K, V>) jop.Objects.ofKind(this, new HashMap<K, V>());
        copy.cells = null;
        copy.first = 0;
        copy.count = 0;
        copy.modCount = 0;
        copy.putEntries(this);
        return copy;
    }

    private void putEntries(Map<? extends K, ? extends V> entries) {
        int added = entries.size();
        if (added == 0) {
            return;
        }
        int least = added + added / 3 + 1;
        if (cells == null) {
            first = least > first ? cellsFor(least) : first;
        } else {
            while (added > limit() && cells.length < Capacity.cells()) { //@WCA loop=8 doublings
                grow();
            }
        }
        Object[] all = entries.entrySet().toArray();
        for (int i = 0; i < all.length; i++) { //@WCA loop=64 elements
            Map.Entry<K, V> entry = (Map.Entry<K, V>) all[i];
            putEntry(entry.getKey(), entry.getValue());
        }
    }

    @Override
    public void clear() {
        modCount++;
        count = 0;
        int length = cells == null ? 0 : cells.length;
        for (int i = 0; i < length; i++) { //@WCA loop=128 cells
            cells[i] = null;
        }
    }

    @Override
    public boolean containsValue(Object value) {
        Iterator<V> each = values().iterator();
        while (each.hasNext()) { //@WCA loop=64 entries
            if (Objects.equals(value, each.next())) {
                return true;
            }
        }
        return false;
    }

    @Override
    public Set<K> keySet() {
        return new HashMapView<K>(this, HashMapIteration.KEYS);
    }

    @Override
    public Collection<V> values() {
        return new HashMapValues<V>(this);
    }

    @Override
    public Set<Map.Entry<K, V>> entrySet() {
        return view();
    }

    private HashMapView<Map.Entry<K, V>> view() {
        return new HashMapView<Map.Entry<K, V>>(this, HashMapIteration.ENTRIES);
    }

    @Override
    public V getOrDefault(Object key, V value) {
        HashMapEntry<K, V> found = entry(key);
        return found == null ? value : found.value;
    }

    @Override
    public V putIfAbsent(K key, V value) {
        HashMapEntry<K, V> found = entry(key);
        if (found == null) {
            add(key, value);
            return null;
        }
        return found.value == null ? found.setValue(value) : found.value;
    }

    @Override
    public boolean remove(Object key, Object value) {
        HashMapEntry<K, V> found = entry(key);
        if (found == null || !Objects.equals(value, found.value)) {
            return false;
        }
        remove(key);
        return true;
    }

    @Override
    public V replace(K key, V value) {
        HashMapEntry<K, V> found = entry(key);
        return found == null ? null : found.setValue(value);
    }

    @Override
    public void forEach(BiConsumer<? super K, ? super V> action) {
        Objects.requireNonNull(action);
        int changes = modCount;
        Object[] all = view().toArray();
        for (int i = 0; i < all.length; i++) { //@WCA loop=64 entries
            HashMapEntry<K, V> entry = (HashMapEntry<K, V>) all[i];
            action.accept(entry.key, entry.value);
        }
        checkChanges(changes);
    }

    @Override
    public V computeIfAbsent(K key, Function<? super K, ? extends V> value) {
        Objects.requireNonNull(value);
        prepare();
        HashMapEntry<K, V> found = entry(key);
        if (found != null && found.value != null) {
            return found.value;
        }
        int changes = modCount;
        V made = value.apply(key);
        checkChanges(changes);
        return kept(found, key, made);
    }

    @Override
    public V computeIfPresent(K key, BiFunction<? super K, ? super V, ? extends V> value) {
        Objects.requireNonNull(value);
        HashMapEntry<K, V> found = entry(key);
        if (found == null || found.value == null) {
            return null;
        }
        int changes = modCount;
        V made = value.apply(key, found.value);
        checkChanges(changes);
        return keptOrRemoved(found, key, made);
    }

    @Override
    public V compute(K key, BiFunction<? super K, ? super V, ? extends V> value) {
        Objects.requireNonNull(value);
        prepare();
        HashMapEntry<K, V> found = entry(key);
        int changes = modCount;
        V made = value.apply(key, found == null ? null : found.value);
        checkChanges(changes);
        return keptOrRemoved(found, key, made);
    }

    @Override
    public V merge(K key, V value, BiFunction<? super V, ? super V, ? extends V> both) {
        if (value == null || both == null) {
            throw new NullPointerException();
        }
        prepare();
        HashMapEntry<K, V> found = entry(key);
        if (found == null || found.value == null) {
            return kept(found, key, value);
        }
        int changes = modCount;
        V made = both.apply(found.value, value);
        checkChanges(changes);
        return keptOrRemoved(found, key, made);
    }

    private void checkChanges(int changes) {
        if (changes != modCount) {
            throw new ConcurrentModificationException();
        }
    }

    /** Keeps a value, but null, in the entry that was found or a new one. */
    private V kept(HashMapEntry<K, V> found, K key, V value) {
        if (value != null && found != null) {
            found.value = value;
        } else if (value != null) {
            addFirst(key, value);
        }
        return value;
    }

    /** Keeps a value; null takes the entry away. */
    private V keptOrRemoved(HashMapEntry<K, V> found, K key, V value) {
        if (value == null && found != null) {
            remove(key);
        }
        return kept(found, key, value);
    }

    /** Whether the other object is a map of as many entries, of which this one has each. */
    @Override
    public boolean equals(Object other) {
        if (other == this) {
            return true;
        }
        return other instanceof Map && view().equals(((Map<?, ?>) other).entrySet());
    }

    @Override
    public int hashCode() {
        return view().hashCode();
    }

    @Override
    public Text toText() {
        StringBuilder text = new StringBuilder().append('{');
        HashMapIteration<HashMapEntry<K, V>> each = new HashMapIteration<HashMapEntry<K, V>>(this, HashMapIteration.ENTRIES);
        while (each.hasNext()) { //@WCA loop=64 entries
            HashMapEntry<K, V> entry = each.next();
            text.append(entry.key).append('=').append(entry.value);
            if (each.hasNext()) {
                text.append(", ");
            }
        }
        return text.append('}').toText();
    }
}
