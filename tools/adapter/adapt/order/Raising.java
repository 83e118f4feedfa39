package adapt.order;

import adapt.classes.Found;
import adapt.classes.Origin;
import adapt.report.Place;
import java.util.Set;
import org.objectweb.asm.Opcodes;
import org.objectweb.asm.tree.AbstractInsnNode;
import org.objectweb.asm.tree.IntInsnNode;
import org.objectweb.asm.tree.LdcInsnNode;
import org.objectweb.asm.tree.MethodInsnNode;
import org.objectweb.asm.tree.MethodNode;
import org.objectweb.asm.tree.TryCatchBlockNode;
import org.objectweb.asm.tree.TypeInsnNode;
import org.objectweb.asm.tree.VarInsnNode;

/** Which instructions may raise an exception for what they are, arrays and null apart: `throw`, divisions, the reading of numbers. */
final class Raising {
    private static final Set<String> DIVISIONS = Set.of("divide", "remainder");

    private Raising() {
    }

    /** Whether an instruction of a method is such a one. */
    static boolean isRaising(Found<MethodNode> in, AbstractInsnNode node) {
        if (in.owner().origin == Origin.LIBRARY) {
            return node instanceof TypeInsnNode made && made.getOpcode() == Opcodes.NEW && made.desc.equals("java/lang/NumberFormatException");
        }
        return switch (node.getOpcode()) {
            case Opcodes.ATHROW -> !isPassedOn(in.member(), node);
            case Opcodes.IDIV, Opcodes.IREM, Opcodes.LDIV, Opcodes.LREM -> !isConstant(before(node));
            case Opcodes.INVOKESTATIC -> node instanceof MethodInsnNode call && call.owner.equals("jop/Longs") && DIVISIONS.contains(call.name)
                    && !isConstant(before(node));
            default -> false;
        };
    }

    /** Where it stands, as `Main.step line 7`; of the library the method alone. */
    static String place(Found<MethodNode> in, AbstractInsnNode node) {
        boolean isLibrary = in.owner().origin == Origin.LIBRARY;
        return isLibrary ? in.owner().name() + "." + in.member().name : Place.of(in.owner().node, in.member(), node).toString();
    }

    private static AbstractInsnNode before(AbstractInsnNode from) {
        AbstractInsnNode node = from.getPrevious();
        while (node != null && node.getOpcode() < 0) {
            node = node.getPrevious();
        }
        return node;
    }

    /** Whether an instruction pushes a number that isn't 0. */
    private static boolean isConstant(AbstractInsnNode node) {
        int opcode = node == null ? -1 : node.getOpcode();
        boolean isShort = opcode == Opcodes.ICONST_M1 || opcode >= Opcodes.ICONST_1 && opcode <= Opcodes.ICONST_5 || opcode == Opcodes.LCONST_1;
        return isShort || node instanceof IntInsnNode push && opcode != Opcodes.NEWARRAY && push.operand != 0
                || node instanceof LdcInsnNode ldc && ldc.cst instanceof Number number && number.longValue() != 0
                || opcode == Opcodes.I2L && isConstant(before(node));
    }

    /** Whether a `throw` hands on what came, as that of a `finally` or of a synchronized block does. */
    private static boolean isPassedOn(MethodNode method, AbstractInsnNode node) {
        AbstractInsnNode loaded = before(node);
        for (TryCatchBlockNode block : method.tryCatchBlocks) {
            AbstractInsnNode first = block.handler;
            while (first != null && first.getOpcode() < 0) {
                first = first.getNext();
            }
            boolean isKept = block.type == null && first instanceof VarInsnNode stored && loaded instanceof VarInsnNode load && stored.var == load.var;
            if (isKept) {
                return true;
            }
        }
        return false;
    }
}
