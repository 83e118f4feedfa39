public class Caught {
    static int tries;
    static int guarded(int n) { try { return 10 / n; } catch (ArithmeticException e) { return -1; } finally { tries++; } }
    static int nested(Object o) { try { try { return ((String) o).length(); } catch (ClassCastException e) { throw new IllegalStateException("no text"); } } catch (RuntimeException e) { return e.getMessage() == null ? 1 : 2; } }
    public static void main(String[] args) { int k = 0; switch (guarded(0)) { case -1: k = 1; break; case 5: k = 2; break; case 1000: k = 3; } jop.Io.write(k + nested(new Caught()) + 70000); }
}
