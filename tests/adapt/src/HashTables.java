/** A hash table by hand, whose keys are compared by equals and hashCode of any object. */
public class HashTables {
    static final class Table {
        private Object[] keys = new Object[8];
        private int[] values = new int[8];
        private int size;

        private int place(Object key) {
            int place = key.hashCode() & keys.length - 1;
            while (keys[place] != null && !keys[place].equals(key)) {
                place = place + 1 & keys.length - 1;
            }
            return place;
        }

        void put(Object key, int value) {
            int place = place(key);
            if (keys[place] == null) {
                size++;
            }
            keys[place] = key;
            values[place] = value;
            if (size * 2 > keys.length) {
                grow();
            }
        }

        int get(Object key, int other) {
            int place = place(key);
            return keys[place] == null ? other : values[place];
        }

        private void grow() {
            Object[] oldKeys = keys;
            int[] oldValues = values;
            keys = new Object[2 * oldKeys.length];
            values = new int[keys.length];
            size = 0;
            for (int k = 0; k < oldKeys.length; k++) {
                if (oldKeys[k] != null) {
                    put(oldKeys[k], oldValues[k]);
                }
            }
        }
    }

    static final class Point {
        private final int x;
        private final int y;

        Point(int x, int y) {
            this.x = x;
            this.y = y;
        }

        @Override
        public boolean equals(Object other) {
            return other instanceof Point && ((Point) other).x == x && ((Point) other).y == y;
        }

        @Override
        public int hashCode() {
            return 31 * x + y;
        }
    }

    enum Key { ONE, TWO }

    public static void main(String[] args) {
        Table table = new Table();
        for (int x = 0; x < 6; x++) {
            for (int y = 0; y < 6; y++) {
                table.put(new Point(x, y), x * 10 + y);
            }
        }
        table.put("text", 100);
        table.put("te" + "xt".substring(0, 2), 101);
        table.put(Key.ONE, 102);
        int sum = 0;
        for (int x = 0; x < 7; x++) {
            sum += table.get(new Point(x, 5 - x), -1000);
        }
        System.out.println(table.size + " " + sum + " " + table.get("text", 0) + " " + table.get(Key.ONE, 0) + table.get(Key.TWO, 0));
        System.out.println(new Point(1, 2).equals(new Point(1, 2)) + " " + new Point(1, 2).equals("x") + " " + "x".equals(new Point(0, 0)));
    }
}
