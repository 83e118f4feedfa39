interface Seen { int look(); }
public class Arrays implements Seen {
    int[][] table; long[] longs;
    public int look() { return table.length; }
    public static void main(String[] args) {
        Seen[] all = new Seen[3]; Seen[][] more = new Seen[2][]; more[0] = all; all[1] = new Arrays();
        Object o = more; Object[] down = (Object[]) o; boolean is = o instanceof Seen[][][];
        int[][] t = new int[4][]; t[0] = new int[2]; long[] l = new long[2]; l[1] = 5;
        jop.Io.write(down.length + (is ? 1 : 0) + t[0].length + (int) l[1]);
    }
}
