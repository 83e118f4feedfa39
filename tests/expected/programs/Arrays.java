import jop.Io;

/** Arrays of all kinds, and what their instructions raise. */
public class Arrays {
    private static int raised(int kind) {
        int[] numbers = {4, 5, 6};
        try {
            switch (kind) {
                case 0:
                    return numbers[numbers.length - 1];
                case 1:
                    Object[] texts = new String[1];
                    texts[0] = numbers;
                    return 0;
                case 2:
                    return new char[kind - 3].length;
                case 3:
                    return numbers[kind];
                case 4:
                    return numbers[kind - 5];
                case 5:
                    short[] none = null;
                    return none[0];
                default:
                    numbers[kind * kind] = kind;
                    return 0;
            }
        } catch (ArrayStoreException fault) {
            return 's';
        } catch (NegativeArraySizeException fault) {
            return 'n';
        } catch (ArrayIndexOutOfBoundsException fault) {
            return 'i';
        } catch (NullPointerException fault) {
            return 'p';
        }
    }

    public static void main(String[] arguments) {
        for (int kind = 0; kind < 7; kind++) {
            Io.write(raised(kind));
        }
        byte[] bytes = {(byte) 200};
        char[] chars = {(char) 70000};
        short[] shorts = {(short) 70000};
        boolean[] flags = {true, false};
        long[] longs = new long[2];
        longs[1] = bytes[0];
        Io.write(bytes[0]);
        Io.write(chars[0] >> 4);
        Io.write(shorts[0] >> 4);
        Io.write(flags[0] && !flags[1] ? 't' : 'f');
        Io.write((int) (longs[1] >>> 32));
        Object[] rows = {bytes, chars, new Object[] {flags}};
        Io.write(((Object[]) rows[2])[0] == flags ? 'y' : 'z');
    }
}
