package adapt.classes;

/** A member and the class that declares it. */
public record Found<M>(LoadedClass owner, M member) {
}
