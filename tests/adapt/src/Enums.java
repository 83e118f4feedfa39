/** Enums: values, ordinals, names, bodies of constants, fields, comparison. */
public class Enums {
    interface Weighted {
        int weight();
    }

    enum Metal implements Weighted {
        IRON(7, 'F'),
        COPPER(8, 'C') {
            @Override
            int price() {
                return 2 * super.price();
            }
        },
        GOLD(19, 'A');

        private static final Metal[] ALL = values();
        private final int density;
        private final char sign;

        Metal(int density, char sign) {
            this.density = density;
            this.sign = sign;
        }

        int price() {
            return density * density;
        }

        @Override
        public int weight() {
            return density;
        }

        Metal next() {
            return ALL[(ordinal() + 1) % ALL.length];
        }
    }

    enum Empty { }

    static String order(Metal one, Metal two) {
        int compared = one.compareTo(two);
        return compared < 0 ? "<" : compared > 0 ? ">" : "=";
    }

    public static void main(String[] args) {
        for (Metal metal : Metal.values()) {
            Weighted weighted = metal;
            System.out.println(metal.ordinal() + " " + metal + " " + metal.name() + " " + metal.sign + " " + metal.price() + " "
                    + weighted.weight() + " " + metal.next());
        }
        Metal[] values = Metal.values();
        values[0] = null;
        System.out.println(Metal.values()[0].name() + " " + Metal.values().length + " " + Empty.values().length);
        for (Metal one : Metal.values()) {
            for (Metal two : Metal.values()) {
                System.out.print(order(one, two) + (one == two) + one.equals(two) + " ");
            }
        }
        System.out.println(Metal.valueOf("GOLD").density);
        try {
            System.out.println(Metal.valueOf("TIN"));
        } catch (IllegalArgumentException e) {
            System.out.println("no tin");
        }
        try {
            System.out.println(Metal.valueOf(null));
        } catch (NullPointerException e) {
            System.out.println("no name");
        }
    }
}
