package java.util;

/** Methods on collections. */
public final class Collections {
    public static final List EMPTY_LIST = new FixedList<Object>(new Object[0]);

    private Collections() {
    }

    public static <T> List<T> emptyList() {
        return (List<T>) EMPTY_LIST;
    }

    public static <T> List<T> singletonList(T element) {
        return new FixedList<T>(new Object[] {element});
    }

    public static <T> Set<T> emptySet() {
        return (Set<T>) UnmodifiableSet.EMPTY;
    }

    public static <K, V> Map<K, V> emptyMap() {
        return (Map<K, V>) UnmodifiableMap.EMPTY;
    }

    public static <T> Iterator<T> emptyIterator() {
        return new FixedIteration<T>(new Object[0]);
    }

    public static <T> Set<T> singleton(T element) {
        HashSet<T> held = new HashSet<T>(2);
        held.add(element);
        return new UnmodifiableSet<T>(held);
    }

    public static <K, V> Map<K, V> singletonMap(K key, V value) {
        HashMap<K, V> held = new HashMap<K, V>(2);
        held.put(key, value);
        return new UnmodifiableMap<K, V>(held);
    }

    /**
     * Elements that are shown, and can't be changed. Raises UnsupportedOperationException for those of what isn't below AbstractCollection or AbstractList,
     * nor unmodifiable.
     */
    public static <T> Collection<T> unmodifiableCollection(Collection<? extends T> all) {
        Objects.requireNonNull(all);
        if (all instanceof UnmodifiableCollection) {
            return (Collection<T>) all;
        }
        Collection<?> held = all instanceof UnmodifiableList ? ((UnmodifiableList<?>) all).inner
            : all instanceof UnmodifiableSet ? ((UnmodifiableSet<?>) all).inner : all;
        if (held instanceof AbstractList) {
            return new UnmodifiableCollection<T>(new ListAsCollection<T>((AbstractList<T>) held));
        }
        if (!(held instanceof AbstractCollection)) {
            throw new UnsupportedOperationException();
        }
        return new UnmodifiableCollection<T>((AbstractCollection<T>) held);
    }

    /** A list that shows another one, and can't be changed. Raises UnsupportedOperationException for one that isn't below AbstractList. */
    public static <T> List<T> unmodifiableList(List<? extends T> list) {
        Objects.requireNonNull(list);
        if (list instanceof UnmodifiableList) {
            return (List<T>) list;
        }
        if (!(list instanceof AbstractList)) {
            throw new UnsupportedOperationException();
        }
        return new UnmodifiableList<T>((AbstractList<T>) list);
    }

    /** A set that shows another one, and can't be changed. Raises UnsupportedOperationException for one that isn't below AbstractSet. */
    public static <T> Set<T> unmodifiableSet(Set<? extends T> set) {
        Objects.requireNonNull(set);
        if (set instanceof UnmodifiableSet) {
            return (Set<T>) set;
        }
        if (!(set instanceof AbstractSet)) {
            throw new UnsupportedOperationException();
        }
        return new UnmodifiableSet<T>((AbstractSet<T>) set);
    }

    /** A map that shows a HashMap, and can't be changed. Raises UnsupportedOperationException for one that is none. */
    public static <K, V> Map<K, V> unmodifiableMap(Map<? extends K, ? extends V> map) {
        Objects.requireNonNull(map);
        if (map instanceof UnmodifiableMap) {
            return (Map<K, V>) map;
        }
        if (!(map instanceof HashMap)) {
            throw new UnsupportedOperationException();
        }
        return new UnmodifiableMap<K, V>((HashMap<K, V>) map);
    }

    /** The list itself, since there is one thread. */
    public static <T> List<T> synchronizedList(List<T> list) {
        Objects.requireNonNull(list);
        return list;
    }

    public static <T> Set<T> synchronizedSet(Set<T> set) {
        Objects.requireNonNull(set);
        return set;
    }

    public static <T> Collection<T> synchronizedCollection(Collection<T> all) {
        Objects.requireNonNull(all);
        return all;
    }

    public static <K, V> Map<K, V> synchronizedMap(Map<K, V> map) {
        Objects.requireNonNull(map);
        return map;
    }

    public static <T> List<T> nCopies(int count, T element) {
        if (count < 0) {
            throw new IllegalArgumentException();
        }
        Object[] copies = new Object[count];
        Arrays.fill(copies, element);
        return new FixedList<T>(copies);
    }

    /** Sorts by `compareTo`; equal elements stay in their order. */
    public static <T extends Comparable<? super T>> void sort(List<T> list) {
        sort(list, null);
    }

    /** Sorts by an order, or by `compareTo` where it is null; equal elements stay in their order. */
    public static <T> void sort(List<T> list, Comparator<? super T> order) {
        Object[] all = list.toArray();
        Arrays.sort((T[]) all, order);
        for (int i = 0; i < all.length; i++) { //@WCA loop=64 elements
            list.set(i, (T) all[i]);
        }
        if (list instanceof ArrayList) {
            ((ArrayList<T>) list).modCount++;
        }
    }

    public static void reverse(List<?> list) {
        int last = list.size() - 1;
        for (int i = 0; i < last - i; i++) { //@WCA loop=32 halves
            swap(list, i, last - i);
        }
    }

    public static void swap(List<?> list, int place, int other) {
        List<Object> all = (List<Object>) list;
        all.set(place, all.set(other, all.get(place)));
    }

    public static <T> boolean addAll(Collection<? super T> to, T... elements) {
        boolean isChanged = false;
        for (int i = 0; i < elements.length; i++) { //@WCA loop=64 elements
            isChanged |= to.add(elements[i]);
        }
        return isChanged;
    }

    /** The first of the greatest elements. */
    public static <T extends Object & Comparable<? super T>> T max(Collection<? extends T> all) {
        Iterator<? extends T> each = all.iterator();
        T found = each.next();
        while (each.hasNext()) { //@WCA loop=64 elements
            T next = each.next();
            found = next.compareTo(found) > 0 ? next : found;
        }
        return found;
    }

    /** The first of the least elements. */
    public static <T extends Object & Comparable<? super T>> T min(Collection<? extends T> all) {
        Iterator<? extends T> each = all.iterator();
        T found = each.next();
        while (each.hasNext()) { //@WCA loop=64 elements
            T next = each.next();
            found = next.compareTo(found) < 0 ? next : found;
        }
        return found;
    }

    /** The order against another one, or against that of `compareTo` where it is null. */
    public static <T> Comparator<T> reverseOrder(Comparator<T> order) {
        return order == null ? new ReverseOrder<T>() : new ReversedOrder<T>(order);
    }

    public static <T> Comparator<T> reverseOrder() {
        return new ReverseOrder<T>();
    }
}
