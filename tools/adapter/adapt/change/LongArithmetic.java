package adapt.change;

import adapt.classes.LoadedClass;
import adapt.classes.Program;
import org.objectweb.asm.Opcodes;
import org.objectweb.asm.tree.AbstractInsnNode;
import org.objectweb.asm.tree.MethodNode;

/** Products, quotients and remainders of longs: calls of `jop/Longs`. */
public final class LongArithmetic implements Change {
    private final Program program;

    /** For the classes of a program. */
    public LongArithmetic(Program program) {
        this.program = program;
    }

    @Override
    public void apply(LoadedClass owner, MethodNode method) {
        for (AbstractInsnNode node : method.instructions.toArray()) {
            String name = switch (node.getOpcode()) {
                case Opcodes.LMUL -> "multiply";
                case Opcodes.LDIV -> "divide";
                case Opcodes.LREM -> "remainder";
                default -> null;
            };
            if (name != null) {
                program.report.replace(Code.place(owner, method, node), "long " + name, "jop/Longs." + name);
                method.instructions.set(node, Code.invokeStatic("jop/Longs", name, "(JJ)J"));
            }
        }
    }
}
