/** StringBuilder and StringBuffer by hand. */
public class Builders {
    static String hex(byte[] bytes) {
        StringBuffer buffer = new StringBuffer();
        for (byte each : bytes) {
            String digits = Integer.toHexString(each & 255);
            buffer.append(digits.length() < 2 ? "0" : "").append(digits);
        }
        return buffer.toString();
    }

    static String table(int size) {
        StringBuilder builder = new StringBuilder(16);
        for (int row = 1; row <= size; row++) {
            for (int column = 1; column <= size; column++) {
                int from = builder.length();
                builder.append(row * column);
                while (builder.length() < from + 4) {
                    builder.insert(from, ' ');
                }
            }
            builder.append('\n');
        }
        return builder.toString();
    }

    public static void main(String[] args) {
        System.out.println(hex(new byte[] {0, 1, 127, -128, -1, 16}));
        System.out.print(table(5));
        StringBuilder builder = new StringBuilder("abcdef");
        builder.reverse().setCharAt(0, 'F');
        builder.deleteCharAt(1).insert(0, 42).append(true).append((Object) "object").append(new char[] {'x', 'y'});
        System.out.println(builder);
        builder.setLength(3);
        System.out.println(builder.toString() + builder.length() + builder.charAt(2) + builder.indexOf("d"));
        builder.delete(0, 2).append(-5L).append((String) null);
        System.out.println(builder.substring(1) + builder.substring(0, 2));
        CharSequence sequence = builder;
        System.out.println(sequence.length() + " " + sequence.charAt(0) + sequence);
    }
}
