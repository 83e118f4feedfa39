package adapt.classes;

/** Where a class comes from. */
public enum Origin {
    /** The linker brings it. */
    CORE,
    /** The class path has it. */
    PROGRAM,
    /** The folder `library` has it. */
    LIBRARY,
    /** It was made while the program was adapted. */
    MADE,
    /** A Java virtual machine has it: only its name and what it stands below are taken. */
    PLATFORM
}
