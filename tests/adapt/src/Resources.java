/** try with resources: the order of closing, and what happens where closing fails. */
public class Resources {
    static final class Door implements AutoCloseable {
        private final String name;
        private final boolean isStuck;

        Door(String name, boolean isStuck) {
            this.name = name;
            this.isStuck = isStuck;
            System.out.print("open " + name + " ");
        }

        @Override
        public void close() {
            System.out.print("close " + name + " ");
            if (isStuck) {
                throw new IllegalStateException(name + " is stuck");
            }
        }
    }

    static int pass(boolean isFirstStuck, boolean isSecondStuck, int kind) {
        try (Door first = new Door("first", isFirstStuck); Door second = new Door("second", isSecondStuck)) {
            if (kind == 1) {
                throw new IllegalArgumentException("fell at " + second.name);
            }
            return first.name.length() + kind;
        } catch (IllegalStateException e) {
            System.out.print("caught " + e.getMessage() + " ");
            return -1;
        } finally {
            System.out.print("done ");
        }
    }

    static void none() {
        Door none = null;
        try (Door door = none) {
            System.out.println(door == null);
        }
    }

    public static void main(String[] args) {
        for (int kind = 0; kind < 8; kind++) {
            try {
                System.out.println(pass((kind & 4) != 0, (kind & 2) != 0, kind & 1));
            } catch (IllegalArgumentException e) {
                System.out.println("passed on " + e.getMessage());
            }
        }
        none();
    }
}
