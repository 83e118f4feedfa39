package adapt.reach;

import adapt.classes.CoreClasses;
import adapt.classes.LoadedClass;
import adapt.classes.Origin;
import adapt.classes.Program;
import adapt.classes.TextNeeded;
import java.util.Set;
import org.objectweb.asm.Type;
import org.objectweb.asm.tree.AbstractInsnNode;
import org.objectweb.asm.tree.LdcInsnNode;
import org.objectweb.asm.tree.MethodInsnNode;
import org.objectweb.asm.tree.TypeInsnNode;

/** Whether a program has strings and uses interfaces that its strings stand below, and the linker's String doesn't: then strings are texts. */
final class LiteralUse {
    private static final Set<String> INTERFACES = Set.of("java/lang/CharSequence", "java/lang/Comparable");
    private final Program program;
    private boolean isMade;
    private boolean isAsked;

    LiteralUse(Program program) {
        this.program = program;
    }

    /** Looks at an instruction that is reached. */
    void see(LoadedClass owner, AbstractInsnNode node) {
        if (program.isText || owner.origin == Origin.CORE) {
            return;
        }
        isMade |= node instanceof LdcInsnNode ldc && ldc.cst instanceof String;
        isAsked |= node instanceof TypeInsnNode type && isOne(type.desc) || node instanceof MethodInsnNode call && isOne(call.owner);
        if (isMade && isAsked) {
            throw new TextNeeded();
        }
    }

    private static boolean isOne(String name) {
        String element = name.startsWith("[") ? Type.getType(name).getElementType().getClassName().replace('.', '/') : name;
        return INTERFACES.contains(element);
    }
}
