import jop.Io;

/** Virtual calls and calls of interfaces through three levels of classes. */
public class Levels {
    interface Named {
        int name();
    }

    interface Sized extends Named {
        int size();
    }

    abstract static class Base implements Named {
        public int name() {
            return 'b';
        }

        int twice() {
            return 2 * value();
        }

        abstract int value();
    }

    static class Middle extends Base implements Sized {
        int value() {
            return 20;
        }

        public int size() {
            return value() + 1;
        }
    }

    static class Last extends Middle {
        public int name() {
            return 'l';
        }

        int value() {
            return super.value() + 5;
        }

        int twice() {
            return super.twice() + 1;
        }
    }

    private static void show(Base base) {
        Io.write(base.name());
        Io.write(base.twice());
        Io.write(base.value());
    }

    private static void show(Sized sized) {
        Io.write(sized.name());
        Io.write(sized.size());
        Named named = sized;
        Io.write(named.name());
    }

    public static void main(String[] arguments) {
        show((Base) new Middle());
        show((Base) new Last());
        show((Sized) new Middle());
        show((Sized) new Last());
        show(new Base() {
            int value() {
                return 7;
            }
        });
    }
}
