package java.security;

import java.io.Serializable;

/** A right by its name. */
public abstract class Permission implements Serializable {
    private final String name;

    public Permission(String name) {
        this.name = name;
    }

    public abstract boolean implies(Permission other);

    public abstract boolean equals(Object other);

    public abstract int hashCode();

    public abstract String getActions();

    public final String getName() {
        return name;
    }
}
