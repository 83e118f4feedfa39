package jop;

/** The methods of Object that collections have: those of what they hold may call them in turn, so that calls of any object go round in a ring. */
public interface CollectionMethods {
    boolean equals(Object other);

    int hashCode();
}
