package jop;

/** Objects that have the method hashCode of Object. */
public interface HashCodeMethod {
    int hashCode();
}
