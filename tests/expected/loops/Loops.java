/** Loops of javac: behind each method its bounds by hand, in the order of the headers; `none` where a loop doesn't count. */
public class Loops {
    static final int LIMIT = 12;
    static final int READ = Integer.parse();
    static final int LOW = -5;
    static int free = 9;

    interface Fixed {
        int SIZE = 7;
    }

    static final class Integer {
        static int parse() {
            return jop.Io.read();
        }
    }

    static void up() { for (int i = 0; i < 10; i++) jop.Io.write(i); } // 10
    static void upTo() { for (int i = 0; i <= 10; i++) jop.Io.write(i); } // 11
    static void down() { for (int i = 10; i > 0; i--) jop.Io.write(i); } // 10
    static void downTo() { for (int i = 10; i >= 0; i--) jop.Io.write(i); } // 11
    static void byThree() { for (int i = 0; i < 10; i += 3) jop.Io.write(i); } // 4
    static void byMinusThree() { for (int i = 10; i > -2; i -= 3) jop.Io.write(i); } // 4
    static void notEqual() { for (int i = 9; i != 0; i -= 3) jop.Io.write(i); } // 3
    static void passesBy() { for (int i = 10; i != 0; i -= 3) jop.Io.write(i); } // none
    static void atMost() { for (int i = 2147483646; i <= 2147483647; i++) jop.Io.write(i); } // none
    static void belowMost() { for (int i = 2147483645; i < 2147483647; i++) jop.Io.write(i); } // 2
    static void pastMost() { for (int i = 2147483645; i < 2147483647; i += 3) jop.Io.write(i); } // none
    static void atLeast() { for (int i = -2147483647; i >= -2147483648; i--) jop.Io.write(i); } // none
    static void aboveLeast() { for (int i = -2147483646; i > -2147483648; i--) jop.Io.write(i); } // 2
    static void all() { for (int i = -2147483648; i < 2147483647; i++) jop.Io.write(i); } // 4294967295
    static void wrongWay() { for (int i = 0; i < 10; i--) jop.Io.write(i); } // none
    static void never() { for (int i = 10; i < 10; i++) jop.Io.write(i); } // 0
    static void equal() { for (int i = 4; i == 4; i++) jop.Io.write(i); } // 1
    static void doWhile() { int i = 0; do { i++; } while (i < 3); } // 2
    static void doOnce() { int i = 5; do { jop.Io.write(i); i++; } while (i < 3); } // 0
    static void whileDown() { int i = 7; while (i-- > 0) jop.Io.write(i); } // none
    static void whileUp() { int i = 0; while (++i < 7) jop.Io.write(i); } // 6
    static void field() { for (int i = 0; i < LIMIT; i++) jop.Io.write(i); } // 12
    static void fixed() { for (int i = 0; i < Fixed.SIZE; i++) jop.Io.write(i); } // 7
    static void negativeField() { for (int i = 0; i > LOW; i--) jop.Io.write(i); } // 5
    static void readField() { for (int i = 0; i < READ; i++) jop.Io.write(i); } // none
    static void freeField() { for (int i = 0; i < free; i++) jop.Io.write(i); } // none
    static void parameter(int n) { for (int i = 0; i < n; i++) jop.Io.write(i); } // none
    static void length(int[] a) { for (int i = 0; i < a.length; i++) a[i] = i; } // none
    static void reversed() { for (int i = 0; 10 > i; i++) jop.Io.write(i); } // none
    static void twoTests(int n) { for (int i = 0; i < 10 && i < n; i++) jop.Io.write(i); } // 10
    static void twoLimits() { for (int i = 0; i < 10 && i < 5; i++) jop.Io.write(i); } // 5
    static void breaks(int n) { for (int i = 0; i < 10; i++) { if (i == n) break; jop.Io.write(i); } } // 10
    static void continues(int n) { for (int i = 0; i < 10; i++) { if (i == n) continue; jop.Io.write(i); } } // 10
    static void skips(int n) { for (int i = 0; i < 10;) { if (n > 0) i++; else n++; } } // none
    static void twice() { for (int i = 0; i < 10; i++) { i++; jop.Io.write(i); } } // none
    static void written(int n) { for (int i = 0; i < 10; i++) { if (n == i) i = 3; } } // none
    static void nested() { for (int i = 0; i < 4; i++) for (int j = 0; j < 5; j++) jop.Io.write(j); } // 4 5
    static void triangle() { for (int i = 0; i < 4; i++) for (int j = 0; j < i; j++) jop.Io.write(j); } // 4 none
    static void innerSteps() { int i = 0; while (i < 10) { for (int j = 0; j < 3; j++) i++; } } // none 3
    static void outerStart() { int j = 0; for (int i = 0; i < 4; i++) { for (; j < 5; j++) jop.Io.write(j); } } // 4 none
    static void wide() { for (int i = 0; i < 10000; i += 300) jop.Io.write(i); } // 34
    static void large() { for (int i = 1000000; i > 0; i -= 1000) jop.Io.write(i); } // 1000
    static void chars() { for (char c = 'a'; c <= 'z'; c++) jop.Io.write(c); } // none
    static void longs() { for (long i = 0; i < 10; i++) jop.Io.write((int) i); } // none
    static void two() { for (int i = 0, j = 10; i < j; i++, j--) jop.Io.write(i); } // none
    static void twoSteps() { for (int i = 0, j = 9; i < 20 && j > 0; i++, j--) jop.Io.write(i); } // 9
    static void endless() { int i = 0; while (true) { i++; if (i == 100) return; } } // 99
    static void sparse() { int i = 0; while (true) { if (i >= 50) break; i += 7; } } // 8
    static void caught(int[] a) { for (int i = 0; i < 8; i++) { try { a[i] = 1; } catch (RuntimeException e) { jop.Io.write(i); } } } // 8
    static void caughtStep(int[] a) { for (int i = 0; i < 8;) { try { a[i] = 1; i++; } catch (RuntimeException e) { jop.Io.write(i); } } } // none
    static void lastly(int[] a) { for (int i = 0; i < 8;) { try { a[i] = 1; } finally { i++; } } } // 8
    static int found(int[] a, int n) { for (int i = 0; i < 16; i++) if (a[i] == n) return i; return -1; } // 16
    static void switched(int n) { for (int i = 0; i < 6; i++) switch (n) { case 1: jop.Io.write(1); break; case 2: continue; default: n--; } } // 6
    static void before(int n) { int i = 3; if (n > 0) jop.Io.write(n); for (; i < 10; i++) jop.Io.write(i); } // none
    static void behind() { int i = 3; jop.Io.write(1); for (; i < 10; i++) jop.Io.write(i); } // 7
    static void twoStarts(int n) { int i; if (n > 0) i = 3; else i = 4; for (; i < 10; i++) jop.Io.write(i); } // none
    static void stepped() { int i = 3; i++; for (; i < 10; i++) jop.Io.write(i); } // none
    static void shadow() { for (int i = 0; i < 5; i++) { int k = i; while (k > 0) k--; } } // 5 none
    static void zeroUp() { for (int i = -5; i < 0; i++) jop.Io.write(i); } // 5
    static void zeroDown() { for (int i = 5; i >= 0; i--) jop.Io.write(i); } // 6
    static void zeroNot() { for (int i = -6; i != 0; i += 2) jop.Io.write(i); } // 3
    static void synchronizedLoop(Object o) { for (int i = 0; i < 3; i++) { synchronized (o) { jop.Io.write(i); } } } // 3 none
    static void labelled(int n) { outer: for (int i = 0; i < 5; i++) { for (int j = 0; j < 6; j++) { if (j == n) continue outer; if (i == n) break outer; } } } // 5 6

    public static void main(String[] a) {
    }
}
