package adapt.write;

import java.util.HashMap;
import java.util.HashSet;
import java.util.Map;
import java.util.Set;
import org.objectweb.asm.Opcodes;
import org.objectweb.asm.Type;
import org.objectweb.asm.tree.AbstractInsnNode;
import org.objectweb.asm.tree.JumpInsnNode;
import org.objectweb.asm.tree.LabelNode;
import org.objectweb.asm.tree.LookupSwitchInsnNode;
import org.objectweb.asm.tree.MethodNode;
import org.objectweb.asm.tree.TableSwitchInsnNode;
import org.objectweb.asm.tree.TryCatchBlockNode;
import org.objectweb.asm.tree.analysis.Analyzer;
import org.objectweb.asm.tree.analysis.AnalyzerException;
import org.objectweb.asm.tree.analysis.BasicInterpreter;
import org.objectweb.asm.tree.analysis.BasicValue;
import org.objectweb.asm.tree.analysis.Frame;

/** What lies on the operand stack before each instruction of a method. */
final class StackShapes {
    private final Frame<BasicValue>[] frames;
    private final AbstractInsnNode[] nodes;
    private final Map<AbstractInsnNode, Integer> lowest = new HashMap<>();
    private final Set<LabelNode> targets = new HashSet<>();

    StackShapes(String owner, MethodNode method) {
        nodes = method.instructions.toArray();
        method.maxStack = Math.max(method.maxStack, 64);
        method.maxLocals = Math.max(method.maxLocals, 64);
        try {
            frames = new Analyzer<>(new Arrays()).analyze(owner, method);
        } catch (AnalyzerException fault) {
            throw new IllegalStateException(owner + "." + method.name + ": " + fault.getMessage(), fault);
        }
        for (AbstractInsnNode node : nodes) {
            addTargets(node);
        }
        for (TryCatchBlockNode block : method.tryCatchBlocks) {
            targets.add(block.start);
            targets.add(block.end);
            targets.add(block.handler);
        }
    }

    private void addTargets(AbstractInsnNode node) {
        if (node instanceof JumpInsnNode jump) {
            targets.add(jump.label);
        } else if (node instanceof TableSwitchInsnNode table) {
            targets.add(table.dflt);
            targets.addAll(table.labels);
        } else if (node instanceof LookupSwitchInsnNode lookup) {
            targets.add(lookup.dflt);
            targets.addAll(lookup.labels);
        }
    }

    /** Whether an instruction may go on elsewhere. */
    static boolean isJump(AbstractInsnNode node) {
        return node instanceof JumpInsnNode || node instanceof TableSwitchInsnNode || node instanceof LookupSwitchInsnNode;
    }

    boolean isTarget(LabelNode label) {
        return targets.contains(label);
    }

    /** Whether a walk comes to a place. */
    boolean isKnown(int place) {
        return place < frames.length && frames[place] != null;
    }

    /** How many values lie on the stack before a place. */
    int depth(int place) {
        return frames[place].getStackSize();
    }

    /** How many values an instruction leaves alone. */
    int lowest(int place) {
        return lowest.computeIfAbsent(nodes[place], node -> node.getOpcode() < 0 ? depth(place) : depth(place) - Pops.count(node, frames[place]));
    }

    /** The class of the array on top of the stack before a place; null where no array is known to lie there. */
    Type array(int place) {
        Frame<BasicValue> frame = frames[place];
        if (frame.getStackSize() == 0) {
            return null;
        }
        Type type = frame.getStack(frame.getStackSize() - 1).getType();
        return type != null && type.getSort() == Type.ARRAY ? type : null;
    }

    /** Keeps the classes of arrays. */
    private static final class Arrays extends BasicInterpreter {
        private Arrays() {
            super(Opcodes.ASM9);
        }

        @Override
        public BasicValue newValue(Type type) {
            return type != null && type.getSort() == Type.ARRAY ? new BasicValue(type) : super.newValue(type);
        }

        @Override
        public BasicValue merge(BasicValue one, BasicValue two) {
            if (one.equals(two)) {
                return one;
            }
            return one.isReference() && two.isReference() ? BasicValue.REFERENCE_VALUE : BasicValue.UNINITIALIZED_VALUE;
        }
    }
}
