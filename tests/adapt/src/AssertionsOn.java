/** Assertions that are kept: they raise, with their messages. */
public class AssertionsOn {
    static int checked;

    static int half(int x) {
        assert x % 2 == 0 : "odd " + x;
        checked++;
        return x / 2;
    }

    static void all(int kind) {
        assert kind != 0;
        assert kind != 1 : 'c';
        assert kind != 2 : 123456789012L;
        assert kind != 3 : kind == 3;
        assert kind != 4 : kind * 11;
        assert kind != 5 : "text";
    }

    public static void main(String[] args) {
        for (int k = 0; k < 6; k++) {
            try {
                System.out.println(half(k));
            } catch (AssertionError e) {
                System.out.println("raised " + e.getMessage());
            }
        }
        for (int k = 0; k < 7; k++) {
            try {
                all(k);
                System.out.println("passed");
            } catch (AssertionError e) {
                System.out.println(k == 5 ? e.getMessage() : "raised");
            }
        }
        System.out.println(checked);
    }
}
