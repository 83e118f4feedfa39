package adapt.change;

import java.util.List;
import org.objectweb.asm.Opcodes;
import org.objectweb.asm.Type;
import org.objectweb.asm.tree.InsnList;
import org.objectweb.asm.tree.InsnNode;
import org.objectweb.asm.tree.IntInsnNode;
import org.objectweb.asm.tree.JumpInsnNode;
import org.objectweb.asm.tree.LabelNode;
import org.objectweb.asm.tree.MethodNode;
import org.objectweb.asm.tree.TypeInsnNode;
import org.objectweb.asm.tree.VarInsnNode;

/** Writes the methods that make and copy arrays. */
final class ArrayCode {
    private ArrayCode() {
    }

    /** Makes an array of several dimensions; all counts are tried before any array is made (JVM Specification, 6.5.multianewarray). */
    static void make(MethodNode method, String owner, String array, int dimensions) {
        InsnList to = method.instructions;
        for (int k = 0; k < dimensions; k++) {
            to.add(new VarInsnNode(Opcodes.ILOAD, k));
            to.add(Code.invokeStatic("jop/Arrays", "check", "(I)V"));
        }
        makeLevel(to, array, 0, dimensions, dimensions);
        to.add(new InsnNode(Opcodes.ARETURN));
    }

    /** Leaves an array on the stack: of this dimension, filled with those of the next one; locals from `free` on are used. */
    private static void makeLevel(InsnList to, String array, int level, int dimensions, int free) {
        to.add(new VarInsnNode(Opcodes.ILOAD, level));
        addNew(to, array);
        if (level == dimensions - 1) {
            return;
        }
        LabelNode test = new LabelNode();
        LabelNode end = new LabelNode();
        to.add(new VarInsnNode(Opcodes.ASTORE, free));
        to.add(new InsnNode(Opcodes.ICONST_0));
        to.add(new VarInsnNode(Opcodes.ISTORE, free + 1));
        to.add(test);
        to.add(new VarInsnNode(Opcodes.ILOAD, free + 1));
        to.add(new VarInsnNode(Opcodes.ILOAD, level));
        to.add(new JumpInsnNode(Opcodes.IF_ICMPGE, end));
        to.add(new VarInsnNode(Opcodes.ALOAD, free));
        to.add(new VarInsnNode(Opcodes.ILOAD, free + 1));
        makeLevel(to, array.substring(1), level + 1, dimensions, free + 2);
        to.add(new InsnNode(Opcodes.AASTORE));
        to.add(new org.objectweb.asm.tree.IincInsnNode(free + 1, 1));
        to.add(new JumpInsnNode(Opcodes.GOTO, test));
        to.add(end);
        to.add(new VarInsnNode(Opcodes.ALOAD, free));
    }

    private static void addNew(InsnList to, String array) {
        int kind = switch (array.charAt(1)) {
            case 'Z' -> Opcodes.T_BOOLEAN;
            case 'C' -> Opcodes.T_CHAR;
            case 'F' -> Opcodes.T_FLOAT;
            case 'D' -> Opcodes.T_DOUBLE;
            case 'B' -> Opcodes.T_BYTE;
            case 'S' -> Opcodes.T_SHORT;
            case 'I' -> Opcodes.T_INT;
            case 'J' -> Opcodes.T_LONG;
            default -> 0;
        };
        if (kind == 0) {
            to.add(new TypeInsnNode(Opcodes.ANEWARRAY, Type.getType(array.substring(1)).getInternalName()));
        } else {
            to.add(new IntInsnNode(Opcodes.NEWARRAY, kind));
        }
    }

    /** Copies an array of references into one of its own class, which is one of those below or that of the parameter. */
    static void copy(MethodNode method, String array, List<String> below) {
        InsnList to = method.instructions;
        to.clear();
        LabelNode made = new LabelNode();
        for (String each : below) {
            LabelNode other = new LabelNode();
            to.add(new VarInsnNode(Opcodes.ALOAD, 0));
            to.add(new TypeInsnNode(Opcodes.INSTANCEOF, each));
            to.add(new JumpInsnNode(Opcodes.IFEQ, other));
            addSame(to, each);
            to.add(new JumpInsnNode(Opcodes.GOTO, made));
            to.add(other);
        }
        addSame(to, array);
        to.add(made);
        addCopying(to);
    }

    /** Makes an array of references of the class of the first argument, which is one of those below or that of objects, of a count of elements. */
    static void ofKind(MethodNode method, List<String> below) {
        InsnList to = method.instructions;
        to.clear();
        to.add(new VarInsnNode(Opcodes.ALOAD, 0));
        to.add(new InsnNode(Opcodes.ARRAYLENGTH));
        to.add(new InsnNode(Opcodes.POP));
        for (String each : below) {
            LabelNode other = new LabelNode();
            to.add(new VarInsnNode(Opcodes.ALOAD, 0));
            to.add(new TypeInsnNode(Opcodes.INSTANCEOF, each));
            to.add(new JumpInsnNode(Opcodes.IFEQ, other));
            addCounted(to, each);
            to.add(other);
        }
        addCounted(to, "[Ljava/lang/Object;");
    }

    private static void addCounted(InsnList to, String array) {
        to.add(new VarInsnNode(Opcodes.ILOAD, 1));
        addNew(to, array);
        to.add(new InsnNode(Opcodes.ARETURN));
    }

    private static void addSame(InsnList to, String array) {
        to.add(new VarInsnNode(Opcodes.ALOAD, 0));
        to.add(new InsnNode(Opcodes.ARRAYLENGTH));
        addNew(to, array);
        to.add(new VarInsnNode(Opcodes.ASTORE, 1));
    }

    private static void addCopying(InsnList to) {
        LabelNode test = new LabelNode();
        LabelNode end = new LabelNode();
        to.add(new InsnNode(Opcodes.ICONST_0));
        to.add(new VarInsnNode(Opcodes.ISTORE, 2));
        to.add(test);
        to.add(new VarInsnNode(Opcodes.ILOAD, 2));
        to.add(new VarInsnNode(Opcodes.ALOAD, 0));
        to.add(new InsnNode(Opcodes.ARRAYLENGTH));
        to.add(new JumpInsnNode(Opcodes.IF_ICMPGE, end));
        to.add(new VarInsnNode(Opcodes.ALOAD, 1));
        to.add(new VarInsnNode(Opcodes.ILOAD, 2));
        to.add(new VarInsnNode(Opcodes.ALOAD, 0));
        to.add(new VarInsnNode(Opcodes.ILOAD, 2));
        to.add(new InsnNode(Opcodes.AALOAD));
        to.add(new InsnNode(Opcodes.AASTORE));
        to.add(new org.objectweb.asm.tree.IincInsnNode(2, 1));
        to.add(new JumpInsnNode(Opcodes.GOTO, test));
        to.add(end);
        to.add(new VarInsnNode(Opcodes.ALOAD, 1));
        to.add(new InsnNode(Opcodes.ARETURN));
    }
}
