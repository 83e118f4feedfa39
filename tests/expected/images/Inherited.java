interface Top { int START = Integer.valueOf(); int run(int x, long y); }
class Integer { static int valueOf() { return 4; } }
interface Left extends Top { int left(); }
interface Right { int run(int x, long y); int right(); }
abstract class Half implements Left, Right { public int left() { return 1; } int call(Half h) { return h.run(1, 2L) + h.right(); } }
class Whole extends Half { public int run(int x, long y) { return x + (int) y; } public int right() { return 2; } }
public class Inherited { public static void main(String[] args) { Half h = new Whole(); Top t = h; Right r = h; jop.Io.write(h.call(h) + t.run(Top.START, 3L) + r.right() + h.left()); } }
