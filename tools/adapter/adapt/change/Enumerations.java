package adapt.change;

import adapt.classes.LoadedClass;
import adapt.classes.LoopBound;
import adapt.classes.Program;
import adapt.classes.TextNeeded;
import adapt.reach.Reach;
import java.util.HashMap;
import java.util.List;
import java.util.Map;
import org.objectweb.asm.Label;
import org.objectweb.asm.Opcodes;
import org.objectweb.asm.Type;
import org.objectweb.asm.tree.AbstractInsnNode;
import org.objectweb.asm.tree.InsnNode;
import org.objectweb.asm.tree.LdcInsnNode;
import org.objectweb.asm.tree.MethodNode;

/** `valueOf` of enums: a search among the class's `values`, in place of a class literal. */
public final class Enumerations implements Change {
    private static final String ENUM = "java/lang/Enum";
    private final Program program;
    private final Reach reach;
    private final Map<String, MethodNode> searches = new HashMap<>();

    /** For the classes of a program. */
    public Enumerations(Program program, Reach reach) {
        this.program = program;
        this.reach = reach;
    }

    /** How many constants an enum has. */
    static int constants(LoadedClass kind) {
        return (int) kind.node.fields.stream().filter(field -> (field.access & Opcodes.ACC_ENUM) != 0).count();
    }

    @Override
    public void apply(LoadedClass owner, MethodNode method) {
        LdcInsnNode literal = null;
        for (AbstractInsnNode node : method.instructions.toArray()) {
            if (node instanceof LdcInsnNode ldc && ldc.cst instanceof Type) {
                literal = ldc;
            } else if (literal != null && Code.isCall(node, ENUM, "valueOf", "(Ljava/lang/Class;Ljava/lang/String;)Ljava/lang/Enum;")) {
                throw new TextNeeded();
            } else if (literal != null && Code.isCall(node, ENUM, "valueOf", "(Ljava/lang/Class;Ljop/Text;)Ljava/lang/Enum;")) {
                search(owner, method, literal, node);
                literal = null;
            }
        }
    }

    private void search(LoadedClass owner, MethodNode method, LdcInsnNode literal, AbstractInsnNode call) {
        String name = ((Type) literal.cst).getInternalName();
        LoadedClass kind = program.find(name);
        MethodNode found = kind == null ? null : searches.computeIfAbsent(name, key -> search(kind));
        if (found == null) {
            return;
        }
        program.report.replace(Code.place(owner, method, call), "valueOf of an enum", name + "." + found.name);
        method.instructions.set(literal, new InsnNode(Opcodes.NOP));
        method.instructions.set(call, Code.invokeStatic(name, found.name, found.desc));
    }

    private MethodNode search(LoadedClass kind) {
        String type = "L" + kind.name() + ";";
        if (kind.method("values", "()[" + type) == null) {
            return null;
        }
        MethodNode to = Code.addHelper(kind, "find", "(Ljop/Text;)" + type);
        to.access |= Opcodes.ACC_PUBLIC;
        Label start = new Label();
        Label test = new Label();
        Label next = new Label();
        Label end = new Label();
        to.visitVarInsn(Opcodes.ALOAD, 0);
        to.visitJumpInsn(Opcodes.IFNONNULL, start);
        ClassFiles.addThrow(to, "java/lang/NullPointerException");
        to.visitLabel(start);
        to.visitMethodInsn(Opcodes.INVOKESTATIC, kind.name(), "values", "()[" + type, false);
        to.visitVarInsn(Opcodes.ASTORE, 1);
        to.visitInsn(Opcodes.ICONST_0);
        to.visitVarInsn(Opcodes.ISTORE, 2);
        to.visitLabel(test);
        to.visitVarInsn(Opcodes.ILOAD, 2);
        to.visitVarInsn(Opcodes.ALOAD, 1);
        to.visitInsn(Opcodes.ARRAYLENGTH);
        to.visitJumpInsn(Opcodes.IF_ICMPGE, end);
        addTest(to, next);
        to.visitLabel(next);
        to.visitIincInsn(2, 1);
        to.visitJumpInsn(Opcodes.GOTO, test);
        to.visitLabel(end);
        ClassFiles.addThrow(to, "java/lang/IllegalArgumentException");
        reach.bound(to, List.of(LoopBound.always(constants(kind))));
        return to;
    }

    /** Returns the constant at the index where it has the name. */
    private static void addTest(MethodNode to, Label next) {
        to.visitVarInsn(Opcodes.ALOAD, 0);
        to.visitVarInsn(Opcodes.ALOAD, 1);
        to.visitVarInsn(Opcodes.ILOAD, 2);
        to.visitInsn(Opcodes.AALOAD);
        to.visitMethodInsn(Opcodes.INVOKEVIRTUAL, ENUM, "name", "()Ljop/Text;", false);
        to.visitMethodInsn(Opcodes.INVOKEVIRTUAL, "jop/Text", "equals", "(Ljava/lang/Object;)Z", false);
        to.visitJumpInsn(Opcodes.IFEQ, next);
        to.visitVarInsn(Opcodes.ALOAD, 1);
        to.visitVarInsn(Opcodes.ILOAD, 2);
        to.visitInsn(Opcodes.AALOAD);
        to.visitInsn(Opcodes.ARETURN);
    }
}
