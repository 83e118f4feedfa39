package java.lang;

import java.io.Serializable;
import jop.EqualsMethod;
import jop.HashCodeMethod;
import jop.Text;
import jop.ToTextMethod;

/** What enums have in common, but for valueOf by a class. */
public abstract class Enum<E extends Enum<E>> implements Comparable<E>, Serializable, EqualsMethod, HashCodeMethod, ToTextMethod {
    private final Text name;
    private final int ordinal;

    protected Enum(Text name, int ordinal) {
        this.name = name;
        this.ordinal = ordinal;
    }

    public final Text name() {
        return name;
    }

    public final int ordinal() {
        return ordinal;
    }

    @Override
    public Text toText() {
        return name;
    }

    @Override
    public final boolean equals(Object other) {
        return this == other;
    }

    /** That of the name; a virtual machine has one that differs from run to run. */
    @Override
    public final int hashCode() {
        return name.hashCode();
    }

    @Override
    public final int compareTo(E other) {
        return ordinal - ((Enum<?>) other).ordinal;
    }
}
