package java.security;

import java.util.Objects;

/** The settings of a provider: there are none. */
public final class Security {
    private Security() {
    }

    /** Null. */
    public static String getProperty(String name) {
        Objects.requireNonNull(name);
        return null;
    }
}
