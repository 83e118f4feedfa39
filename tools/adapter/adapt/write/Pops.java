package adapt.write;

import org.objectweb.asm.Opcodes;
import org.objectweb.asm.Type;
import org.objectweb.asm.tree.AbstractInsnNode;
import org.objectweb.asm.tree.FieldInsnNode;
import org.objectweb.asm.tree.MethodInsnNode;
import org.objectweb.asm.tree.analysis.BasicValue;
import org.objectweb.asm.tree.analysis.Frame;

/** How many values an instruction takes off the operand stack or looks at; a long is one value. */
final class Pops {
    private Pops() {
    }

    static int count(AbstractInsnNode node, Frame<BasicValue> frame) {
        int opcode = node.getOpcode();
        if (node instanceof MethodInsnNode call) {
            return Type.getArgumentTypes(call.desc).length + (opcode == Opcodes.INVOKESTATIC ? 0 : 1);
        }
        if (node instanceof FieldInsnNode) {
            return switch (opcode) {
                case Opcodes.GETSTATIC -> 0;
                case Opcodes.PUTFIELD -> 2;
                default -> 1;
            };
        }
        return plain(opcode, frame);
    }

    private static int plain(int opcode, Frame<BasicValue> frame) {
        if (opcode <= Opcodes.ALOAD || opcode == Opcodes.NEW) {
            return 0;
        }
        if (opcode >= Opcodes.IALOAD && opcode <= Opcodes.SALOAD) {
            return 2;
        }
        if (opcode >= Opcodes.IASTORE && opcode <= Opcodes.SASTORE) {
            return 3;
        }
        return switch (opcode) {
            case Opcodes.DUP, Opcodes.POP, Opcodes.INEG, Opcodes.LNEG, Opcodes.I2L, Opcodes.L2I, Opcodes.I2B, Opcodes.I2C, Opcodes.I2S,
                Opcodes.NEWARRAY, Opcodes.ANEWARRAY, Opcodes.ARRAYLENGTH, Opcodes.CHECKCAST, Opcodes.INSTANCEOF -> 1;
            case Opcodes.NOP -> 0;
            case Opcodes.IADD, Opcodes.LADD, Opcodes.ISUB, Opcodes.LSUB, Opcodes.IMUL, Opcodes.IDIV, Opcodes.IREM, Opcodes.ISHL, Opcodes.LSHL,
                Opcodes.ISHR, Opcodes.LSHR, Opcodes.IUSHR, Opcodes.LUSHR, Opcodes.IAND, Opcodes.LAND, Opcodes.IOR, Opcodes.LOR, Opcodes.IXOR,
                Opcodes.LXOR, Opcodes.LCMP, Opcodes.DUP_X1, Opcodes.SWAP, Opcodes.POP2, Opcodes.DUP2 -> Math.min(2, frame.getStackSize());
            default -> Math.min(4, frame.getStackSize());
        };
    }
}
