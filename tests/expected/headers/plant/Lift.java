package plant;

/** A class of a package. */
public class Lift {
    static void rise(int n) {
        for (int floor = 0; floor < n; floor++) {
            jop.Io.write(floor);
        }
    }
}
