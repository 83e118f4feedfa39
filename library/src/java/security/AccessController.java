package java.security;

/** There are no rights to be asked for: what is asked is done. */
public final class AccessController {
    private AccessController() {
    }

    public static <T> T doPrivileged(PrivilegedAction<T> action) {
        return action.run();
    }
}
