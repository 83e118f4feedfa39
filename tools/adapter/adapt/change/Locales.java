package adapt.change;

import adapt.classes.LoadedClass;
import adapt.classes.Program;
import java.util.Set;
import org.objectweb.asm.Opcodes;
import org.objectweb.asm.tree.AbstractInsnNode;
import org.objectweb.asm.tree.FieldInsnNode;
import org.objectweb.asm.tree.InsnNode;
import org.objectweb.asm.tree.MethodInsnNode;
import org.objectweb.asm.tree.MethodNode;

/** Letters in the cases of English: without a locale. */
public final class Locales implements Change {
    private static final String LOCALE = "java/util/Locale";
    private static final String CASE = "(Ljava/util/Locale;)Ljop/Text;";
    private static final Set<String> ENGLISH = Set.of("ENGLISH", "ROOT", "US", "UK");
    private final Program program;

    /** For the classes of a program. */
    public Locales(Program program) {
        this.program = program;
    }

    @Override
    public void apply(LoadedClass owner, MethodNode method) {
        for (AbstractInsnNode node : method.instructions.toArray()) {
            if (node instanceof FieldInsnNode get && get.owner.equals(LOCALE) && ENGLISH.contains(get.name)) {
                program.report.replace(Code.place(owner, method, node), "Locale." + get.name, "null");
                method.instructions.set(node, new InsnNode(Opcodes.ACONST_NULL));
            } else if (Code.isCall(node, "jop/Text", "toLowerCase", CASE) || Code.isCall(node, "jop/Text", "toUpperCase", CASE)) {
                method.instructions.insertBefore(node, new InsnNode(Opcodes.POP));
                ((MethodInsnNode) node).desc = "()Ljop/Text;";
            }
        }
    }
}
