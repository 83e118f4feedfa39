/** Loops by the lines of their sources. */
public class Lines {
    static void copies(int n) {
        try {
            if (n > 3) {
                return;
            }
            jop.Io.write(n);
        } finally {
            for (int i = 0; i < n; i++) {
                jop.Io.write(i);
            }
        }
    }

    static void onOneLine(int n) {
        for (int i = 0; i < n; i++) { jop.Io.write(i); } for (int i = 0; i < 5; i++) { jop.Io.write(i); }
    }

    static void nestedOnOneLine(int n) {
        for (int i = 0; i < 6; i++) { for (int j = 0; j < n; j++) { jop.Io.write(j); } }
    }

    static void bodyFirst(int n) {
        int i = 0;
        do {
            i++;
            jop.Io.write(i);
        } while (i < n);
    }

    static void overLines(int n) {
        for (int i = 0;
             i < n;
             i++) {
            jop.Io.write(i);
        }
    }

    static void behindItsCondition(int n) {
        while (
            n > 0
        ) {
            n--;
        }
    }

    static void counts() {
        for (int i = 0; i < 12; i++) {
            jop.Io.write(i);
        }
    }

    public static void main(String[] arguments) {
    }
}

class Beside {
    static void loop(int n) {
        for (int i = 0; i < n; i++) {
            jop.Io.write(i);
        }
    }

    static class Within {
        static void loop(int n) {
            while (n > 0) {
                n--;
            }
        }
    }
}
