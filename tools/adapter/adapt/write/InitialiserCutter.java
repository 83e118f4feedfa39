package adapt.write;

import adapt.classes.LoadedClass;
import java.util.ArrayList;
import java.util.List;
import java.util.function.Consumer;
import org.objectweb.asm.Opcodes;
import org.objectweb.asm.Type;
import org.objectweb.asm.tree.AbstractInsnNode;
import org.objectweb.asm.tree.FieldInsnNode;
import org.objectweb.asm.tree.FieldNode;
import org.objectweb.asm.tree.IincInsnNode;
import org.objectweb.asm.tree.InsnList;
import org.objectweb.asm.tree.InsnNode;
import org.objectweb.asm.tree.LabelNode;
import org.objectweb.asm.tree.LineNumberNode;
import org.objectweb.asm.tree.MethodInsnNode;
import org.objectweb.asm.tree.MethodNode;
import org.objectweb.asm.tree.VarInsnNode;

/** Moves straight pieces of a static initialiser into methods: whole statements, or elements of an array that lies on the stack. */
final class InitialiserCutter {
    private static final int LEAST = 64;
    private final LoadedClass owner;
    private final MethodNode method;
    private final int most;
    private final Consumer<MethodNode> made;
    private final StackShapes shapes;
    private final AbstractInsnNode[] nodes;

    InitialiserCutter(LoadedClass owner, MethodNode method, int limit, Consumer<MethodNode> made) {
        this.owner = owner;
        this.method = method;
        this.most = limit * 7 / 8;
        this.made = made;
        this.shapes = new StackShapes(owner.name(), method);
        this.nodes = method.instructions.toArray();
    }

    /** Moves the pieces, and gives how many there are. */
    int cut() {
        int count = 0;
        for (int from = 0; from < nodes.length; from++) {
            int to = end(from);
            if (to > from) {
                move(from, to);
                count++;
                from = to - 1;
            }
        }
        return count;
    }

    /** Behind the longest piece that begins at a place and can be moved; that place where there is none. */
    private int end(int from) {
        if (nodes[from].getOpcode() < 0 || !shapes.isKnown(from)) {
            return from;
        }
        int depth = shapes.depth(from);
        int size = 0;
        int best = from;
        boolean isTaking = false;
        for (int k = from; k < nodes.length && isStraight(nodes[k]); k++) {
            size += CodeSize.of(nodes[k]);
            if (size > most || !shapes.isKnown(k + 1)) {
                break;
            }
            isTaking |= shapes.lowest(k) < depth;
            if (shapes.lowest(k) < depth - 1 || isTaking && shapes.array(from) == null) {
                break;
            }
            if (shapes.depth(k + 1) == depth && size >= LEAST && (!isTaking || shapes.array(from).equals(shapes.array(k + 1)))) {
                best = k + 1;
            }
        }
        return best;
    }

    /** Whether an instruction neither jumps nor is jumped to, and uses no local variable. */
    private boolean isStraight(AbstractInsnNode node) {
        if (node instanceof LabelNode label) {
            return !shapes.isTarget(label);
        }
        int opcode = node.getOpcode();
        boolean isEnd = opcode >= Opcodes.IRETURN && opcode <= Opcodes.RETURN || opcode == Opcodes.ATHROW;
        return !(isEnd || node instanceof VarInsnNode || node instanceof IincInsnNode || StackShapes.isJump(node));
    }

    private boolean isTaking(int from, int to) {
        for (int k = from; k < to; k++) {
            if (shapes.lowest(k) < shapes.depth(from)) {
                return true;
            }
        }
        return false;
    }

    private void move(int from, int to) {
        Type array = isTaking(from, to) ? shapes.array(from) : null;
        String descriptor = array == null ? "()V" : "(" + array + ")" + array;
        MethodNode piece = new MethodNode(Opcodes.ACC_STATIC | Opcodes.ACC_SYNTHETIC, owner.freshName("initialise"), descriptor, null, null);
        MethodInsnNode call = new MethodInsnNode(Opcodes.INVOKESTATIC, owner.name(), piece.name, descriptor, false);
        method.instructions.insertBefore(nodes[from], call);
        List<AbstractInsnNode> taken = new ArrayList<>(List.of(nodes).subList(from, to));
        fill(piece, array, taken);
        owner.add(piece);
        made.accept(piece);
    }

    private void fill(MethodNode piece, Type array, List<AbstractInsnNode> taken) {
        InsnList to = piece.instructions;
        addLine(to, taken.get(0));
        if (array != null) {
            to.add(new VarInsnNode(Opcodes.ALOAD, 0));
        }
        for (AbstractInsnNode node : taken) {
            method.instructions.remove(node);
            to.add(node);
            if (node instanceof FieldInsnNode put && put.getOpcode() == Opcodes.PUTSTATIC && put.owner.equals(owner.name())) {
                FieldNode field = owner.field(put.name, put.desc);
                field.access &= ~Opcodes.ACC_FINAL;
            }
        }
        to.add(new InsnNode(array == null ? Opcodes.RETURN : Opcodes.ARETURN));
    }

    /** The line in which the piece begins. */
    private static void addLine(InsnList to, AbstractInsnNode first) {
        AbstractInsnNode node = first;
        while (node != null && !(node instanceof LineNumberNode)) {
            node = node.getPrevious();
        }
        if (node != null) {
            LabelNode label = new LabelNode();
            to.add(label);
            to.add(new LineNumberNode(((LineNumberNode) node).line, label));
        }
    }
}
