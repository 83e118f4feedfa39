package adapt.reach;

import org.objectweb.asm.Opcodes;
import org.objectweb.asm.tree.AbstractInsnNode;
import org.objectweb.asm.tree.IntInsnNode;
import org.objectweb.asm.tree.LdcInsnNode;

/** Which instructions are of floating point. */
final class Floats {
    private Floats() {
    }

    static boolean isFloat(AbstractInsnNode node) {
        if (node instanceof LdcInsnNode ldc) {
            return ldc.cst instanceof Float || ldc.cst instanceof Double;
        }
        if (node instanceof IntInsnNode made && made.getOpcode() == Opcodes.NEWARRAY) {
            return made.operand == Opcodes.T_FLOAT || made.operand == Opcodes.T_DOUBLE;
        }
        return switch (node.getOpcode()) {
            case Opcodes.FCONST_0, Opcodes.FCONST_1, Opcodes.FCONST_2, Opcodes.DCONST_0, Opcodes.DCONST_1, Opcodes.FLOAD, Opcodes.DLOAD,
                Opcodes.FALOAD, Opcodes.DALOAD, Opcodes.FSTORE, Opcodes.DSTORE, Opcodes.FASTORE, Opcodes.DASTORE, Opcodes.FADD,
                Opcodes.DADD, Opcodes.FSUB, Opcodes.DSUB, Opcodes.FMUL, Opcodes.DMUL, Opcodes.FDIV, Opcodes.DDIV, Opcodes.FREM,
                Opcodes.DREM, Opcodes.FNEG, Opcodes.DNEG, Opcodes.I2F, Opcodes.I2D, Opcodes.L2F, Opcodes.L2D, Opcodes.F2I, Opcodes.F2L,
                Opcodes.F2D, Opcodes.D2I, Opcodes.D2L, Opcodes.D2F, Opcodes.FCMPL, Opcodes.FCMPG, Opcodes.DCMPL, Opcodes.DCMPG,
                Opcodes.FRETURN, Opcodes.DRETURN -> true;
            default -> false;
        };
    }
}
