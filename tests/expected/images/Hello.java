public class Hello {
    static int count = 3;
    static final long big = 9223372036854775807L;
    interface Shape { int area(); }
    static abstract class Base implements Shape { public int twice() { return 2 * area(); } }
    static class Square extends Base { int side; long tag; Square(int s) { side = s; } public int area() { return side * side; } }
    public static void main(String[] args) {
        Base b = new Square(count);
        Object[] os = new Square[2];
        try { os[0] = "hi"; } catch (ArrayStoreException e) { count = 4; }
        jop.Io.write(b.twice());
    }
}
