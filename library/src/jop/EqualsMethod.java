package jop;

/** Objects that have the method equals of Object. */
public interface EqualsMethod {
    boolean equals(Object other);
}
