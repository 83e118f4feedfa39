package adapt.classes;

/** What the strings of a program are. */
public enum Strings {
    /** Literals of the linker. */
    LITERALS,
    /** Objects of `jop/Text`; exceptions have no messages but literals, which nothing reads. */
    TEXTS,
    /** Objects of `jop/Text`, also as messages of exceptions. */
    MESSAGES
}
