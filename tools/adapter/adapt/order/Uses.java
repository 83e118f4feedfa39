package adapt.order;

import adapt.classes.Found;
import adapt.classes.LoadedClass;
import adapt.classes.Program;
import adapt.reach.Reach;
import java.util.LinkedHashSet;
import java.util.Set;
import org.objectweb.asm.Opcodes;
import org.objectweb.asm.tree.AbstractInsnNode;
import org.objectweb.asm.tree.FieldInsnNode;
import org.objectweb.asm.tree.FieldNode;
import org.objectweb.asm.tree.MethodNode;

/** Of which classes an initialiser may read static fields, itself or by the methods that it runs. */
final class Uses {
    private final Program program;
    private final Reach reach;
    private final Calls calls;

    Uses(Program program, Reach reach, Calls calls) {
        this.program = program;
        this.reach = reach;
        this.calls = calls;
    }

    /** These classes, each once: those that calls by name lead to come before those that other calls may lead to. */
    Set<LoadedClass> of(LoadedClass initialised) {
        Set<LoadedClass> found = new LinkedHashSet<>();
        MethodNode initialiser = initialised.method("<clinit>", "()V");
        if (initialiser != null && reach.isRun(initialiser)) {
            calls.each(initialised, initialiser, false, (method, node) -> visit(node, found));
            calls.each(initialised, initialiser, true, (method, node) -> visit(node, found));
        }
        found.remove(initialised);
        return found;
    }

    private void visit(AbstractInsnNode node, Set<LoadedClass> found) {
        if (node instanceof FieldInsnNode field && node.getOpcode() == Opcodes.GETSTATIC) {
            Found<FieldNode> read = program.field(field.owner, field.name, field.desc);
            if (read != null && read.member().value == null && read.owner().method("<clinit>", "()V") != null) {
                found.add(read.owner());
            }
        }
    }
}
