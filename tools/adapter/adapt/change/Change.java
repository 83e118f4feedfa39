package adapt.change;

import adapt.classes.LoadedClass;
import org.objectweb.asm.tree.MethodNode;

/** Replaces one form that the linker refuses, wherever a method has it. */
public interface Change {
    /** Changes the instructions of a method of a class. */
    void apply(LoadedClass owner, MethodNode method);
}
