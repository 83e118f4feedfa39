import jop.Io;

/** Sorts the bytes of the input by two ways, which have to agree. */
public class Sorting {
    private static void insertion(int[] list, int count) {
        for (int i = 1; i < count; i++) {
            int kept = list[i];
            int j = i;
            while (j > 0 && list[j - 1] > kept) {
                list[j] = list[j - 1];
                j--;
            }
            list[j] = kept;
        }
    }

    private static void quick(byte[] list, int from, int to) {
        if (to - from < 2) {
            return;
        }
        byte pivot = list[(from + to) >>> 1];
        int i = from;
        int j = to - 1;
        while (i <= j) {
            while ((list[i] & 0xff) < (pivot & 0xff)) {
                i++;
            }
            while ((list[j] & 0xff) > (pivot & 0xff)) {
                j--;
            }
            if (i <= j) {
                byte moved = list[i];
                list[i++] = list[j];
                list[j--] = moved;
            }
        }
        quick(list, from, j + 1);
        quick(list, i, to);
    }

    public static void main(String[] arguments) {
        int[] ints = new int[64];
        byte[] bytes = new byte[64];
        int count = 0;
        for (int b = Io.read(); b >= 0 && count < 64; b = Io.read()) {
            ints[count] = b;
            bytes[count++] = (byte) b;
        }
        insertion(ints, count);
        quick(bytes, 0, count);
        for (int i = 0; i < count; i++) {
            Io.write(ints[i] == (bytes[i] & 0xff) ? ints[i] : '!');
        }
    }
}
