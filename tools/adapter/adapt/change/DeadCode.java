package adapt.change;

import java.util.ArrayDeque;
import java.util.Deque;
import java.util.HashSet;
import java.util.Set;
import org.objectweb.asm.Opcodes;
import org.objectweb.asm.tree.AbstractInsnNode;
import org.objectweb.asm.tree.JumpInsnNode;
import org.objectweb.asm.tree.LabelNode;
import org.objectweb.asm.tree.LookupSwitchInsnNode;
import org.objectweb.asm.tree.MethodNode;
import org.objectweb.asm.tree.TableSwitchInsnNode;
import org.objectweb.asm.tree.TryCatchBlockNode;

/** Takes out instructions that no walk reaches. */
final class DeadCode {
    private final MethodNode method;
    private final Set<AbstractInsnNode> reached = new HashSet<>();
    private final Deque<AbstractInsnNode> waiting = new ArrayDeque<>();

    private DeadCode(MethodNode method) {
        this.method = method;
    }

    /** Takes them out of a method, and handlers that then protect nothing. */
    static void remove(MethodNode method) {
        DeadCode code = new DeadCode(method);
        code.walk(method.instructions.getFirst());
        while (code.walkHandlers()) {
            continue;
        }
        for (AbstractInsnNode node : method.instructions.toArray()) {
            if (node.getOpcode() >= 0 && !code.reached.contains(node)) {
                method.instructions.remove(node);
            }
        }
        method.tryCatchBlocks.removeIf(block -> !code.isProtecting(block, true));
    }

    private void walk(AbstractInsnNode from) {
        waiting.add(from);
        while (!waiting.isEmpty()) {
            AbstractInsnNode node = waiting.remove();
            while (node != null && reached.add(node)) {
                addTargets(node);
                node = isEnd(node) ? null : node.getNext();
            }
        }
    }

    private void addTargets(AbstractInsnNode node) {
        if (node instanceof JumpInsnNode jump) {
            waiting.add(jump.label);
        } else if (node instanceof TableSwitchInsnNode table) {
            waiting.add(table.dflt);
            waiting.addAll(table.labels);
        } else if (node instanceof LookupSwitchInsnNode lookup) {
            waiting.add(lookup.dflt);
            waiting.addAll(lookup.labels);
        }
    }

    private static boolean isEnd(AbstractInsnNode node) {
        int opcode = node.getOpcode();
        return opcode == Opcodes.GOTO || opcode == Opcodes.ATHROW || opcode >= Opcodes.IRETURN && opcode <= Opcodes.RETURN
                || opcode == Opcodes.TABLESWITCH || opcode == Opcodes.LOOKUPSWITCH;
    }

    private boolean walkHandlers() {
        boolean isNew = false;
        for (TryCatchBlockNode block : method.tryCatchBlocks) {
            if (!reached.contains(block.handler) && isProtecting(block, false)) {
                walk(block.handler);
                isNew = true;
            }
        }
        return isNew;
    }

    /** Whether an instruction that is reached stands within the range; when others have gone, any instruction. */
    private boolean isProtecting(TryCatchBlockNode block, boolean isCut) {
        for (AbstractInsnNode node = block.start; node != null && node != block.end; node = node.getNext()) {
            if (node.getOpcode() >= 0 && (isCut || reached.contains(node))) {
                return true;
            }
        }
        return false;
    }
}
