package adapt.change;

import adapt.classes.LoadedClass;
import adapt.classes.Program;
import adapt.classes.TextNeeded;
import org.objectweb.asm.Opcodes;
import org.objectweb.asm.tree.AbstractInsnNode;
import org.objectweb.asm.tree.InsnList;
import org.objectweb.asm.tree.InsnNode;
import org.objectweb.asm.tree.JumpInsnNode;
import org.objectweb.asm.tree.LabelNode;
import org.objectweb.asm.tree.MethodInsnNode;
import org.objectweb.asm.tree.MethodNode;

/** `equals`, `hashCode` and `toString` of receivers whose class declares none: calls of `jop/Objects`. */
public final class ObjectMethods implements Change {
    private static final String OBJECTS = "jop/Objects";
    private final Program program;

    /** For the classes of a program. */
    public ObjectMethods(Program program) {
        this.program = program;
    }

    @Override
    public void apply(LoadedClass owner, MethodNode method) {
        for (AbstractInsnNode node : method.instructions.toArray()) {
            if (node instanceof MethodInsnNode call && call.getOpcode() != Opcodes.INVOKESTATIC && isUndeclared(call)) {
                boolean isSuper = call.getOpcode() == Opcodes.INVOKESPECIAL;
                InsnList by = isSuper ? ofIdentity(call) : dispatched(call);
                if (by != null) {
                    program.report.replace(Code.place(owner, method, node), call.name + " of Object", isSuper ? "identity" : OBJECTS);
                    method.instructions.insert(call, by);
                    method.instructions.remove(call);
                }
            }
        }
    }

    private boolean isUndeclared(MethodInsnNode call) {
        return program.find(call.owner) != null && program.method(call.owner, call.name, call.desc) == null;
    }

    private static InsnList list(AbstractInsnNode... nodes) {
        InsnList list = new InsnList();
        for (AbstractInsnNode node : nodes) {
            list.add(node);
        }
        return list;
    }

    private InsnList dispatched(MethodInsnNode call) {
        return switch (call.name + call.desc) {
            case "equals(Ljava/lang/Object;)Z" -> list(Code.invokeStatic(OBJECTS, "equals", "(Ljava/lang/Object;Ljava/lang/Object;)Z"));
            case "hashCode()I" -> list(Code.invokeStatic(OBJECTS, "hashCode", "(Ljava/lang/Object;)I"));
            case "toText()Ljop/Text;" -> list(Code.invokeStatic(OBJECTS, "toText", "(Ljava/lang/Object;)Ljop/Text;"));
            case "toString()Ljava/lang/String;" -> throw new TextNeeded();
            case "getClass()Ljava/lang/Class;" -> nullTest(call);
            default -> null;
        };
    }

    /** What a compiler writes to raise an exception where an object is null. */
    private static InsnList nullTest(MethodInsnNode call) {
        AbstractInsnNode next = Code.next(call);
        return next == null || next.getOpcode() != Opcodes.POP ? null
                : list(Code.invokeStatic("java/util/Objects", "requireNonNull", "(Ljava/lang/Object;)Ljava/lang/Object;"));
    }

    private static InsnList ofIdentity(MethodInsnNode call) {
        return switch (call.name + call.desc) {
            case "hashCode()I" -> list(Code.invokeStatic("java/lang/System", "identityHashCode", "(Ljava/lang/Object;)I"));
            case "equals(Ljava/lang/Object;)Z" -> sameness();
            case "toText()Ljop/Text;" -> list(Code.invokeStatic(Descriptions.NAME, "toText", Descriptions.OF));
            case "toString()Ljava/lang/String;" -> throw new TextNeeded();
            case "finalize()V" -> list(new InsnNode(Opcodes.POP));
            default -> null;
        };
    }

    private static InsnList sameness() {
        LabelNode other = new LabelNode();
        LabelNode end = new LabelNode();
        return list(new JumpInsnNode(Opcodes.IF_ACMPNE, other), new InsnNode(Opcodes.ICONST_1), new JumpInsnNode(Opcodes.GOTO, end), other,
                new InsnNode(Opcodes.ICONST_0), end);
    }
}
