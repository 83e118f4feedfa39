/** Boxed numbers, as far as the library has them. */
public class Boxes {
    static int sum(Integer[] numbers) {
        int sum = 0;
        for (Integer number : numbers) {
            sum += number;
        }
        return sum;
    }

    static <T extends Comparable<T>> boolean isSorted(T[] all) {
        for (int k = 1; k < all.length; k++) {
            if (all[k - 1].compareTo(all[k]) > 0) {
                return false;
            }
        }
        return true;
    }

    public static void main(String[] args) {
        Integer[] numbers = {1, 200, -300, Integer.valueOf(Integer.parseInt("45")), Integer.parseInt("-7")};
        System.out.println(sum(numbers) + " " + isSorted(numbers) + isSorted(new Long[] {1L, 2L, 1L << 40}) + isSorted(new Character[] {'a', 'b'}));
        Object[] objects = {5, 5L, 'x', true, (byte) 3, (short) -9, "s"};
        for (Object object : objects) {
            System.out.print(object + " " + object.hashCode() + " " + object.equals(5) + ", ");
        }
        Integer one = 127;
        Integer two = 127;
        System.out.println((one == two) + " " + Integer.toBinaryString(10) + Integer.toHexString(-1) + Long.toHexString(1L << 36));
        System.out.println(Integer.bitCount(255) + Integer.reverse(1) + Long.numberOfTrailingZeros(64) + Math.max(3, 9) + Math.abs(-4L));
        System.out.println(Character.isDigit('7') + "" + Character.toUpperCase('q') + Character.getNumericValue('8') + Character.forDigit(11, 16));
        try {
            Integer.parseInt("12x");
        } catch (NumberFormatException e) {
            System.out.println("no number");
        }
    }
}
