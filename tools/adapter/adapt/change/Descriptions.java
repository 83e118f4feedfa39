package adapt.change;

import adapt.classes.CoreClasses;
import adapt.classes.LoadedClass;
import adapt.classes.Program;
import adapt.classes.Strings;
import adapt.classes.TextNeeded;
import org.objectweb.asm.Label;
import org.objectweb.asm.MethodVisitor;
import org.objectweb.asm.Opcodes;
import org.objectweb.asm.tree.AbstractInsnNode;
import org.objectweb.asm.tree.ClassNode;
import org.objectweb.asm.tree.LdcInsnNode;
import org.objectweb.asm.tree.MethodNode;
import org.objectweb.asm.tree.VarInsnNode;

/** The texts of objects whose class has no `toString`: the name of the class, with the message of an exception or a hash code. */
public final class Descriptions implements Change {
    /** The class that gives them. */
    static final String NAME = "jop/made/Descriptions";
    /** The descriptor of its method, `toText`. */
    static final String OF = "(Ljava/lang/Object;)Ljop/Text;";
    private static final String BUILDER = "java/lang/StringBuilder";
    private static final String BUILT = ")Ljava/lang/StringBuilder;";
    private final Program program;
    private boolean isMade;

    /** For the classes of a program. */
    public Descriptions(Program program) {
        this.program = program;
    }

    @Override
    public void apply(LoadedClass owner, MethodNode method) {
        boolean isLast = owner.name().equals("jop/Objects") && method.name.equals("toText");
        for (AbstractInsnNode node : method.instructions.toArray()) {
            if (isLast && node instanceof LdcInsnNode ldc && ldc.cst.equals("object")) {
                AbstractInsnNode call = Code.next(node);
                method.instructions.set(node, new VarInsnNode(Opcodes.ALOAD, 0));
                method.instructions.set(call, Code.invokeStatic(NAME, "toText", OF));
                make();
            } else if (Code.isCall(node, NAME, "toText", OF)) {
                make();
            }
        }
    }

    private void make() {
        if (program.strings != Strings.MESSAGES) {
            throw new TextNeeded(Strings.MESSAGES);
        }
        if (isMade) {
            return;
        }
        isMade = true;
        ClassNode node = new ClassNode();
        node.version = Opcodes.V1_8;
        node.name = NAME;
        node.superName = CoreClasses.OBJECT;
        node.access = Opcodes.ACC_PUBLIC | Opcodes.ACC_SUPER | Opcodes.ACC_FINAL | Opcodes.ACC_SYNTHETIC;
        write(node.visitMethod(Opcodes.ACC_PUBLIC | Opcodes.ACC_STATIC, "toText", OF, null, null));
        program.make(node);
    }

    private static void write(MethodVisitor to) {
        Label other = new Label();
        Label end = new Label();
        to.visitTypeInsn(Opcodes.NEW, BUILDER);
        to.visitInsn(Opcodes.DUP);
        to.visitMethodInsn(Opcodes.INVOKESPECIAL, BUILDER, "<init>", "()V", false);
        to.visitVarInsn(Opcodes.ASTORE, 1);
        to.visitVarInsn(Opcodes.ALOAD, 0);
        to.visitMethodInsn(Opcodes.INVOKEVIRTUAL, CoreClasses.OBJECT, "getClass", "()Ljava/lang/Class;", false);
        to.visitMethodInsn(Opcodes.INVOKEVIRTUAL, "java/lang/Class", "getName", "()Ljop/Text;", false);
        to.visitVarInsn(Opcodes.ASTORE, 2);
        append(to, () -> to.visitVarInsn(Opcodes.ALOAD, 2));
        to.visitVarInsn(Opcodes.ALOAD, 0);
        to.visitTypeInsn(Opcodes.INSTANCEOF, CoreClasses.THROWABLE);
        to.visitJumpInsn(Opcodes.IFEQ, other);
        writeMessage(to, end);
        to.visitLabel(other);
        append(to, () -> to.visitLdcInsn("@"));
        append(to, () -> {
            to.visitVarInsn(Opcodes.ALOAD, 0);
            to.visitMethodInsn(Opcodes.INVOKESTATIC, "jop/Objects", "hashCode", "(Ljava/lang/Object;)I", false);
            to.visitMethodInsn(Opcodes.INVOKESTATIC, "java/lang/Integer", "toHexString", "(I)Ljop/Text;", false);
        });
        to.visitLabel(end);
        to.visitVarInsn(Opcodes.ALOAD, 1);
        to.visitMethodInsn(Opcodes.INVOKEVIRTUAL, BUILDER, "toText", "()Ljop/Text;", false);
        to.visitInsn(Opcodes.ARETURN);
    }

    /** Behind a colon the message, where there is one. */
    private static void writeMessage(MethodVisitor to, Label end) {
        to.visitVarInsn(Opcodes.ALOAD, 0);
        to.visitTypeInsn(Opcodes.CHECKCAST, CoreClasses.THROWABLE);
        to.visitMethodInsn(Opcodes.INVOKEVIRTUAL, CoreClasses.THROWABLE, "getMessage", "()Ljop/Text;", false);
        to.visitVarInsn(Opcodes.ASTORE, 2);
        to.visitVarInsn(Opcodes.ALOAD, 2);
        to.visitJumpInsn(Opcodes.IFNULL, end);
        append(to, () -> to.visitLdcInsn(": "));
        append(to, () -> to.visitVarInsn(Opcodes.ALOAD, 2));
        to.visitJumpInsn(Opcodes.GOTO, end);
    }

    private static void append(MethodVisitor to, Runnable text) {
        to.visitVarInsn(Opcodes.ALOAD, 1);
        text.run();
        to.visitMethodInsn(Opcodes.INVOKEVIRTUAL, BUILDER, "append", "(Ljop/Text;" + BUILT, false);
        to.visitInsn(Opcodes.POP);
    }
}
