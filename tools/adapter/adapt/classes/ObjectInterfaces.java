package adapt.classes;

import org.objectweb.asm.Opcodes;
import org.objectweb.asm.tree.MethodNode;

/** Lets classes that declare `equals`, `hashCode` or `toString` implement interfaces of the library, through which they are called on any object. */
final class ObjectInterfaces {
    private ObjectInterfaces() {
    }

    static void add(Program program, LoadedClass to) {
        if (!program.isBelow(to, "jop/CollectionMethods")) {
            add(program, to, "jop/EqualsMethod", "equals", "(Ljava/lang/Object;)Z");
            add(program, to, "jop/HashCodeMethod", "hashCode", "()I");
        }
        add(program, to, "jop/ToTextMethod", "toText", "()Ljop/Text;");
    }

    private static void add(Program program, LoadedClass to, String name, String method, String descriptor) {
        MethodNode declared = to.method(method, descriptor);
        if (declared == null || (declared.access & Opcodes.ACC_PUBLIC) == 0 || (declared.access & Opcodes.ACC_STATIC) != 0) {
            return;
        }
        if (!to.node.interfaces.contains(name) && program.find(name) != null) {
            to.node.interfaces.add(name);
        }
    }

    /** Whether a method of an interface is one that each object has. */
    static boolean isOfObject(MethodNode method) {
        return switch (method.name + method.desc) {
            case "equals(Ljava/lang/Object;)Z", "hashCode()I", "toString()Ljava/lang/String;", "toText()Ljop/Text;" -> true;
            default -> false;
        };
    }
}
