/** Arrays of several dimensions, whole and in part, and their faults. */
public class Grids {
    static int[][] product(int[][] one, int[][] two) {
        int[][] result = new int[one.length][two[0].length];
        for (int row = 0; row < one.length; row++) {
            for (int column = 0; column < two[0].length; column++) {
                for (int k = 0; k < two.length; k++) {
                    result[row][column] += one[row][k] * two[k][column];
                }
            }
        }
        return result;
    }

    static String tried(int x, int y, int z) {
        try {
            return "" + new byte[x][y][z].length;
        } catch (NegativeArraySizeException e) {
            return "negative";
        }
    }

    static void life(boolean[][] from, boolean[][] to) {
        int size = from.length;
        for (int row = 0; row < size; row++) {
            for (int column = 0; column < size; column++) {
                int near = 0;
                for (int k = 0; k < 9; k++) {
                    near += k != 4 && from[(row + k / 3 + size - 1) % size][(column + k % 3 + size - 1) % size] ? 1 : 0;
                }
                to[row][column] = near == 3 || near == 2 && from[row][column];
            }
        }
    }

    public static void main(String[] args) {
        int[][] result = product(new int[][] {{1, 2}, {3, 4}}, new int[][] {{5, 6, 7}, {8, 9, 10}});
        System.out.println(result[0][0] + " " + result[1][2] + " " + result.length + " " + result[1].length);
        long[][][] cube = new long[2][3][4];
        cube[1][2][3] = 1L << 50;
        char[][][] open = new char[3][2][];
        String[][] words = new String[2][2];
        words[1][0] = "word";
        Object[][] objects = words;
        short[][] shorts = new short[0][5];
        System.out.println(cube[1][2][3] + cube[0][0].length + " " + (open[2][1] == null) + " " + words[0][1] + words[1][0].length());
        System.out.println(objects.length + " " + (objects instanceof String[][]) + (objects[0] instanceof String[]) + shorts.length);
        System.out.println(tried(2, 3, 4) + tried(0, -1, 2) + tried(-1, 0, 0) + tried(0, 0, -2) + tried(0, 0, 0));
        try {
            objects[0][0] = new Grids();
        } catch (ArrayStoreException e) {
            System.out.println("store");
        }
        boolean[][] now = new boolean[6][6];
        boolean[][] next = new boolean[6][6];
        now[1][2] = now[2][3] = now[3][1] = now[3][2] = now[3][3] = true;
        for (int k = 0; k < 9; k++) {
            life(now, next);
            boolean[][] other = now;
            now = next;
            next = other;
        }
        for (boolean[] row : now) {
            for (boolean cell : row) {
                System.out.print(cell ? '#' : '.');
            }
            System.out.println();
        }
    }
}
