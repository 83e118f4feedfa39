import it.unimi.dsi.fastutil.ints.Int2IntAVLTreeMap;
import it.unimi.dsi.fastutil.ints.IntIterator;

/** A map of ints to ints. */
public class IntMap {
    public static void main(String[] args) {
        Int2IntAVLTreeMap map = new Int2IntAVLTreeMap();
        map.defaultReturnValue(-1);
        byte[] keys = Data.noise(60);
        for (int k = 0; k < keys.length; k++) {
            map.addTo(keys[k] & 31, k);
            map.put(keys[k] >> 1, k * k);
            if (k % 3 == 0) {
                map.remove(keys[k / 2] & 31);
            }
        }
        System.out.println(map.size() + " " + map.firstIntKey() + " " + map.lastIntKey() + " " + map.containsKey(3));
        for (IntIterator each = map.keySet().iterator(); each.hasNext();) {
            int key = each.nextInt();
            System.out.println(key + "=" + map.get(key));
        }
    }
}
