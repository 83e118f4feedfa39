/** Loops of javac that count with what is known further: behind each method its bounds by hand, in the order of the headers; `none` where a loop doesn't count. */
public class Further {
    static final int SIZE = 6;
    static final int[] TABLE = {3, 1, 4, 1, 5};
    static final byte[] BYTES = new byte[SIZE + 1];
    static final long[][] ROWS = new long[3][];
    static final String[] NAMES = {"a", "b"};
    static int[] free = new int[4];
    static int[] other = new int[4];
    static int[] twice = new int[4];
    static int[] cleared = new int[4];
    static int[] copied = TABLE;
    static int[] never;
    static int count = 9;

    static class Ring {
        final int[] slots = new int[8];
        int[] open = new int[5];
        int[] sized;
        char[] text = made();
        int[] late;
        int at;

        Ring(int size) {
            sized = new int[size];
        }

        int total() { int n = 0; for (int i = 0; i < slots.length; i++) n += slots[i]; return n; } // 8
        int sumOpen() { int n = 0; for (int i = 0; i < open.length; i++) n += open[i]; return n; } // 5
        int sumSized() { int n = 0; for (int i = 0; i < sized.length; i++) n += sized[i]; return n; } // none
        int sumText() { int n = 0; for (int i = 0; i < text.length; i++) n += text[i]; return n; } // none
        int sumLate() { int n = 0; for (int i = 0; i < late.length; i++) n += late[i]; return n; } // 2
        int last() { int n = 0; for (int i = slots.length - 1; i >= 0; i--) n += slots[i]; return n; } // 8
        void fill() { late = new int[2]; }
        int eachSlot() { int n = 0; for (int x : slots) n += x; return n; } // 8
        int ofAnother(Ring r) { int n = 0; for (int i = 0; i < r.slots.length; i++) n += r.slots[i]; return n; } // 8
        int ofInner(Pair p) { int n = 0; for (int i = 0; i < p.one.slots.length; i++) n++; return n; } // none
    }

    static class Pair {
        Ring one = new Ring(3);
    }

    static class Base {
        int[] kept = new int[7];
    }

    static class Derived extends Base {
        int[] own = new int[9];
        int both() { int n = 0; for (int i = 0; i < kept.length; i++) n++; for (int i = 0; i < own.length; i++) n++; return n; } // 7 9
    }

    static class Changed extends Base {
        int[] put = new int[2];
        void change(int n) { put = new int[n]; }
        int through() { int n = 0; for (int i = 0; i < put.length; i++) n++; return n; } // none
    }

    static char[] made() { return new char[3]; }
    static void local() { int n = 10; for (int i = 0; i < n; i++) jop.Io.write(i); } // 10
    static void localOfTwo(int a) { int n = a > 0 ? 10 : 12; for (int i = 0; i < n; i++) jop.Io.write(i); } // none
    static void localOfSame(int a) { int n; if (a > 0) n = 10; else n = 10; for (int i = 0; i < n; i++) jop.Io.write(i); } // 10
    static void stepped() { int n = 10; n++; for (int i = 0; i < n; i++) jop.Io.write(i); } // none
    static void changedInside(int a) { int n = 10; for (int i = 0; i < n; i++) if (a == i) n = 10; } // 10
    static void changedOtherwise(int a) { int n = 10; for (int i = 0; i < n; i++) if (a == i) n = 11; } // none
    static void parameter(int n) { for (int i = 0; i < n; i++) jop.Io.write(i); } // none
    static void sum() { int a = 4; int b = a * 3 - 2; for (int i = 0; i < b; i++) jop.Io.write(i); } // 10
    static void quotient() { int a = -7; int b = a / 2; for (int i = 0; i > b; i--) jop.Io.write(i); } // 3
    static void remainder() { int a = 17; int b = a % 6; for (int i = 0; i < b; i++) jop.Io.write(i); } // 5
    static void byZero() { int a = 17; int z = 0; int b = a / z; for (int i = 0; i < b; i++) jop.Io.write(i); } // none
    static void shifts() { int a = 1; int b = a << 4 | 3; int c = b ^ 1; for (int i = 0; i < c; i++) jop.Io.write(i); } // 18
    static void unsigned() { int a = -1; int b = a >>> 28; for (int i = 0; i < b; i++) jop.Io.write(i); } // 15
    static void wraps() { int a = 2147483647; int b = a + a; for (int i = 0; i > b; i--) jop.Io.write(i); } // 2
    static void start() { int a = 3; for (int i = a; i < 10; i++) jop.Io.write(i); } // 7
    static void startOfLength() { int[] a = new int[5]; for (int i = a.length; i > 0; i--) jop.Io.write(i); } // 5
    static void length() { int[] a = new int[5]; for (int i = 0; i < a.length; i++) a[i] = i; } // 5
    static void lengthOfParameter(int[] a) { for (int i = 0; i < a.length; i++) a[i] = i; } // none
    static void lengthOfNumber(int n) { int[] a = new int[n]; for (int i = 0; i < a.length; i++) a[i] = i; } // none
    static void lengthOfInitialiser() { int[] a = {7, 8, 9}; for (int i = 0; i < a.length; i++) jop.Io.write(a[i]); } // 3
    static void each() { int[] a = {7, 8, 9}; for (int x : a) jop.Io.write(x); } // 3
    static void eachOfLongs() { long[] a = {7, 8}; for (long x : a) jop.Io.write((int) x); } // 2
    static void eachOfCalls(int n) { int[] a = {n, n}; for (int x : a) jop.Io.write(x); } // none
    static void references() { Object[] a = new Object[SIZE]; for (int i = 0; i < a.length; i++) a[i] = a; } // 6
    static void negative() { int n = -1; int[] a = new int[n]; for (int i = 0; i < a.length; i++) a[i] = i; } // none
    static void ofTwo(int n) { int[] a = n > 0 ? new int[4] : new int[5]; for (int i = 0; i < a.length; i++) a[i] = i; } // none
    static void tested(int n) { int[] a = new int[4]; if (n > 0) a = new int[4]; for (int i = 0; i < a.length; i++) a[i] = i; } // 4
    static void table() { for (int i = 0; i < TABLE.length; i++) jop.Io.write(TABLE[i]); } // 5
    static void eachOfTable() { for (int x : TABLE) jop.Io.write(x); } // 5
    static void bytes() { for (int i = 0; i < BYTES.length; i++) jop.Io.write(BYTES[i]); } // 7
    static void rows() { for (int i = 0; i < ROWS.length; i++) jop.Io.write(i); } // 3
    static void names() { for (int i = 0; i < NAMES.length; i++) jop.Io.write(i); } // none
    static void ofFree() { for (int i = 0; i < free.length; i++) jop.Io.write(i); } // 4
    static void ofOther() { for (int i = 0; i < other.length; i++) jop.Io.write(i); } // none
    static void putOther(int[] a) { other = a; }
    static void ofTwice() { for (int i = 0; i < twice.length; i++) jop.Io.write(i); } // 4
    static void putTwice() { twice = new int[2 + 2]; }
    static void ofCleared() { for (int i = 0; i < cleared.length; i++) jop.Io.write(i); } // none
    static void clear() { cleared = null; }
    static void ofCopied() { for (int i = 0; i < copied.length; i++) jop.Io.write(i); } // none
    static void ofNever() { for (int i = 0; i < never.length; i++) jop.Io.write(i); } // none
    static void ofCount() { for (int i = 0; i < count; i++) jop.Io.write(i); } // none
    static void ofRing(Ring r) { for (int i = 0; i < r.slots.length; i++) jop.Io.write(i); } // 8
    static void ofNewRing() { for (int i = 0; i < new Ring(1).slots.length; i++) jop.Io.write(i); } // none
    static void again(int n) { for (int k = 0; k < 3; k++) { int i = 0; while (i < 4) { i++; jop.Io.write(n); } } } // 3 4
    static void goesOn(int n) { int i = 0; for (int k = 0; k < 3; k++) while (i < 4) { i++; jop.Io.write(n); } } // 3 none
    static void twoEntries(int n) { int i = 0; if (n > 0) jop.Io.write(n); for (; i < 4; i++) jop.Io.write(n); } // 4
    static void twoStarts(int n) { int i; if (n > 0) i = 0; else i = 1; for (; i < 4; i++) jop.Io.write(n); } // none
    static void caught(int n) { int m = 5; try { jop.Io.write(10 / n); } catch (ArithmeticException e) { m = 5; } for (int i = 0; i < m; i++) jop.Io.write(i); } // 5
    static void reversed() { int n = 10; for (int i = 0; n > i; i++) jop.Io.write(i); } // none
    static void nested() { int n = 3; for (int i = 0; i < n; i++) for (int j = n; j > 0; j--) jop.Io.write(j); } // 3 3
    static void plain() { for (int i = 0; i < 10; i++) jop.Io.write(i); } // 10
    static void constantField() { for (int i = 0; i < SIZE; i++) jop.Io.write(i); } // 6

    public static void main(String[] args) {
        local();
    }
}
