/** Arrays of lengths that no constant says. */
public class Sizes {
    static int[] first(int count) {
        return new int[count]; // @WCA length=3
    }

    static Object[] second(int count) {
        Object[] made = new Object[count];
        made[0] = new byte[2 * count];
        return made;
    }

    public static void main(String[] arguments) {
        jop.Io.write(first(2).length + second(2).length); // @WCA length=9
    }
}
