/** Private members that nested classes use of one another without methods in between, as compilers for Java 11 and later have it. */
public class Nests {
    private int count = 3;
    private static long total = 1L << 33;

    private int add(int x) {
        return count += x;
    }

    private static String text(int x) {
        return "text" + x;
    }

    static class Inner {
        private final Nests of;
        private int seen;

        private Inner(Nests of) {
            this.of = of;
        }

        private int look() {
            seen++;
            return of.add(10) + of.count;
        }

        private String name() {
            return text(of.count) + "/" + total;
        }

        class Deeper extends Inner {
            private Deeper() {
                super(of);
            }

            private int look() {
                return 1000 + Inner.this.look();
            }

            private String name() {
                return "deeper " + Inner.this.name();
            }
        }
    }

    interface Hidden {
        private int secret() {
            return 5;
        }

        default int shown() {
            return secret() * 2;
        }
    }

    public static void main(String[] args) {
        Inner inner = new Inner(new Nests());
        Inner.Deeper deeper = inner.new Deeper();
        System.out.println(inner.look() + " " + deeper.look() + " " + inner.seen + " " + inner.name() + " " + deeper.name());
        Inner upcast = deeper;
        System.out.println(upcast.look() + " " + upcast.name() + " " + new Hidden() { }.shown());
        inner.of.count = 50;
        System.out.println(inner.look());
    }
}
