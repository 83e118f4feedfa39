package adapt.change;

import adapt.classes.LoadedClass;
import adapt.classes.Program;
import org.objectweb.asm.Opcodes;
import org.objectweb.asm.Type;
import org.objectweb.asm.tree.AbstractInsnNode;
import org.objectweb.asm.tree.FieldInsnNode;
import org.objectweb.asm.tree.InsnNode;
import org.objectweb.asm.tree.JumpInsnNode;
import org.objectweb.asm.tree.LdcInsnNode;
import org.objectweb.asm.tree.MethodNode;

/** `assert`: switched off, its code is left out; switched on, the class literal that asks for it is. */
public final class Assertions implements Change {
    private final Program program;

    /** For the classes of a program. */
    public Assertions(Program program) {
        this.program = program;
    }

    @Override
    public void apply(LoadedClass owner, MethodNode method) {
        boolean isCut = false;
        for (AbstractInsnNode node : method.instructions.toArray()) {
            AbstractInsnNode next = Code.next(node);
            if (node instanceof LdcInsnNode ldc && ldc.cst instanceof Type && Code.isCall(next, null, "desiredAssertionStatus", "()Z")) {
                program.report.replace(Code.place(owner, method, node), "assert", program.options.asserts() ? "true" : "false");
                method.instructions.remove(next);
                method.instructions.set(node, Code.push(program.options.asserts() ? 1 : 0));
            } else if (!program.options.asserts() && isDisabled(node)) {
                isCut |= skip(method, node, next);
            }
        }
        if (isCut) {
            DeadCode.remove(method);
        }
    }

    private static boolean isDisabled(AbstractInsnNode node) {
        return node instanceof FieldInsnNode field && field.getOpcode() == Opcodes.GETSTATIC && field.name.equals("$assertionsDisabled");
    }

    /** Jumps past an assertion. */
    private static boolean skip(MethodNode method, AbstractInsnNode node, AbstractInsnNode next) {
        if (next instanceof JumpInsnNode jump && jump.getOpcode() == Opcodes.IFNE) {
            method.instructions.remove(node);
            method.instructions.set(next, new JumpInsnNode(Opcodes.GOTO, jump.label));
            return true;
        }
        method.instructions.set(node, new InsnNode(Opcodes.ICONST_1));
        return false;
    }
}
