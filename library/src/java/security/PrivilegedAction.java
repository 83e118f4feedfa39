package java.security;

/** What is done with all rights. */
public interface PrivilegedAction<T> {
    T run();
}
