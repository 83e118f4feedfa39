import jop.Io;

/** A linked list that grows until there is no memory. */
public class Filling {
    private static class Node {
        final Node next;
        final int[] load;

        Node(Node next) {
            this.next = next;
            this.load = new int[1000];
        }
    }

    private static Node all;

    public static void main(String[] arguments) {
        int faults = 0;
        while (faults < 2) {
            try {
                all = new Node(all);
            } catch (OutOfMemoryError fault) {
                faults++;
            }
        }
        int rest = 0;
        for (Node node = all; node != null && rest < 3; node = node.next) {
            rest++;
        }
        all = null;
        Io.write(faults);
        Io.write(rest);
    }
}
