package java.util;

/** The keys, values or entries of a HashMap one after another, cell by cell; a change meanwhile is told. */
final class HashMapIteration<E> implements Iterator<E> {
    static final int KEYS = 0;
    static final int VALUES = 1;
    static final int ENTRIES = 2;
    private final HashMap<?, ?> map;
    private final int kind;
    private int changes;
    private int cell;
    private HashMapEntry<?, ?> next;
    private HashMapEntry<?, ?> last;

    HashMapIteration(HashMap<?, ?> map, int kind) {
        this.map = map;
        this.kind = kind;
        changes = map.modCount;
        next = firstFrom(0);
    }

    /** The first entry of the cells from one on. */
    private HashMapEntry<?, ?> firstFrom(int first) {
        HashMapEntry<?, ?>[] cells = map.cells;
        int count = cells == null ? 0 : cells.length;
        for (cell = first; cell < count; cell++) { //@WCA loop=128 cells
            if (cells[cell] != null) {
                return cells[cell];
            }
        }
        return null;
    }

    @Override
    public boolean hasNext() {
        return next != null;
    }

    @Override
    public E next() {
        checkChanges();
        if (next == null) {
            throw new NoSuchElementException();
        }
        last = next;
        next = last.next != null ? last.next : firstFrom(cell + 1);
        Object element = kind == KEYS ? last.key : kind == VALUES ? last.value : last;
        return (E) element;
    }

    @Override
    public void remove() {
        if (last == null) {
            throw new IllegalStateException();
        }
        checkChanges();
        map.remove(last.key);
        last = null;
        changes = map.modCount;
    }

    private void checkChanges() {
        if (changes != map.modCount) {
            throw new ConcurrentModificationException();
        }
    }
}
