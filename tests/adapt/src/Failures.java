/** Exceptions of one's own with messages that are made at run time, causes, and finally. */
public class Failures {
    static class Failure extends RuntimeException {
        private static final long serialVersionUID = 1;
        final int code;

        Failure(String what, int code) {
            super(what + " with code " + code);
            this.code = code;
        }

        Failure(Throwable cause) {
            super("caused", cause);
            this.code = -1;
        }
    }

    static final class Polite extends Failure {
        private static final long serialVersionUID = 1;

        Polite(int code) {
            super("please", code);
        }

        @Override
        public String getMessage() {
            return "sorry: " + super.getMessage();
        }
    }

    static int depth;

    static int fail(int kind) throws Exception {
        try {
            switch (kind) {
                case 0: throw new Failure("zero", 10);
                case 1: throw new Polite(11);
                case 2: throw new IllegalArgumentException("bad " + kind);
                case 3: throw new IllegalStateException("literal");
                case 4: throw new UnsupportedOperationException();
                case 5: throw new Exception("checked " + kind, new Failure("inner", 5));
                case 6: return kind / depth;
                case 7: throw new Failure(new IllegalStateException());
                case 8: return "abc".charAt(kind);
                case 9: throw new IndexOutOfBoundsException("index " + kind);
                case 10: throw new Error("error " + kind);
                default: return kind;
            }
        } finally {
            System.out.print("finally ");
        }
    }

    static String tell(int kind) {
        try {
            return "returned " + fail(kind);
        } catch (Failure e) {
            return "failure " + e.code + " " + e.getMessage();
        } catch (ArithmeticException e) {
            return "arithmetic";
        } catch (IndexOutOfBoundsException e) {
            return kind == 9 ? e.getMessage() : "outside";
        } catch (RuntimeException e) {
            return "runtime " + e.getMessage();
        } catch (Exception e) {
            return "exception " + e.getMessage();
        } catch (Throwable e) {
            return "throwable " + e.getMessage();
        }
    }

    static int nested() {
        for (int k = 0;; k++) {
            try {
                try {
                    if (k < 2) {
                        continue;
                    }
                    return k;
                } finally {
                    System.out.print("inner" + k + " ");
                    if (k == 3) {
                        throw new Failure("left", k);
                    }
                }
            } catch (Failure e) {
                System.out.print(e.getMessage());
            } finally {
                System.out.print("outer" + k + " ");
            }
        }
    }

    public static void main(String[] args) {
        for (int kind = 0; kind < 12; kind++) {
            System.out.println(tell(kind));
        }
        System.out.println(nested());
    }
}
