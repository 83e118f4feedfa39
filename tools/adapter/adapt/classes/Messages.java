package adapt.classes;

import java.util.HashMap;
import java.util.Map;
import org.objectweb.asm.Label;
import org.objectweb.asm.MethodVisitor;
import org.objectweb.asm.Opcodes;
import org.objectweb.asm.tree.ClassNode;
import org.objectweb.asm.tree.MethodInsnNode;

/** Makes the classes by which messages of exceptions are texts that were made at run time. */
public final class Messages {
    /** The descriptor of `getMessage`. */
    public static final String GET = "()Ljop/Text;";
    private static final String HELPER = "jop/made/Messages";
    private static final String INTERFACE = "jop/made/Message";
    private static final String TEXT = "jop/Text";
    private static final int STATIC = Opcodes.ACC_PUBLIC | Opcodes.ACC_STATIC;
    private final Program program;
    private final Map<String, String> telling = new HashMap<>();
    private boolean isMade;

    Messages(Program program) {
        this.program = program;
    }

    /** Lets a class of the program below an exception of the linker stand below one that keeps the text. */
    void add(LoadedClass to) {
        if (program.strings != Strings.MESSAGES || to.origin == Origin.MADE) {
            return;
        }
        LoadedClass above = program.superclass(to);
        if (above != null && above.origin == Origin.CORE && program.isBelow(above, CoreClasses.THROWABLE)) {
            to.node.superName = telling(above.name());
        }
    }

    /** Whether a class is one of those that keep the text. */
    public boolean isTelling(String name) {
        return telling.containsValue(name);
    }

    /** The class below an exception of the linker that keeps the text. */
    public String telling(String above) {
        String known = telling.get(above);
        if (known != null) {
            return known;
        }
        makeHelper();
        String name = "jop/made/" + above.substring(above.lastIndexOf('/') + 1);
        telling.put(above, name);
        ClassNode node = node(name, above, program.find(above).node.access & Opcodes.ACC_ABSTRACT | Opcodes.ACC_PUBLIC | Opcodes.ACC_SUPER);
        node.interfaces.add(INTERFACE);
        node.visitField(Opcodes.ACC_PRIVATE | Opcodes.ACC_FINAL, "message", "Ljop/Text;", null, null);
        addConstructors(node, above);
        MethodVisitor get = node.visitMethod(Opcodes.ACC_PUBLIC, "getMessage", GET, null, null);
        get.visitVarInsn(Opcodes.ALOAD, 0);
        get.visitFieldInsn(Opcodes.GETFIELD, name, "message", "Ljop/Text;");
        get.visitInsn(Opcodes.ARETURN);
        program.make(node);
        return name;
    }

    private static void addConstructors(ClassNode node, String above) {
        MethodVisitor empty = node.visitMethod(Opcodes.ACC_PUBLIC, "<init>", "()V", null, null);
        empty.visitVarInsn(Opcodes.ALOAD, 0);
        empty.visitMethodInsn(Opcodes.INVOKESPECIAL, above, "<init>", "()V", false);
        empty.visitInsn(Opcodes.RETURN);
        MethodVisitor text = node.visitMethod(Opcodes.ACC_PUBLIC, "<init>", "(Ljop/Text;)V", null, null);
        text.visitVarInsn(Opcodes.ALOAD, 0);
        text.visitMethodInsn(Opcodes.INVOKESPECIAL, above, "<init>", "()V", false);
        text.visitVarInsn(Opcodes.ALOAD, 0);
        text.visitVarInsn(Opcodes.ALOAD, 1);
        text.visitFieldInsn(Opcodes.PUTFIELD, node.name, "message", "Ljop/Text;");
        text.visitInsn(Opcodes.RETURN);
    }

    private static ClassNode node(String name, String above, int access) {
        ClassNode node = new ClassNode();
        node.version = Opcodes.V1_8;
        node.name = name;
        node.superName = above;
        node.access = access | Opcodes.ACC_SYNTHETIC;
        return node;
    }

    /** Makes the interface, and the class that asks an exception for its text. */
    private void makeHelper() {
        if (isMade) {
            return;
        }
        isMade = true;
        ClassNode message = node(INTERFACE, CoreClasses.OBJECT, Opcodes.ACC_PUBLIC | Opcodes.ACC_INTERFACE | Opcodes.ACC_ABSTRACT);
        message.visitMethod(Opcodes.ACC_PUBLIC | Opcodes.ACC_ABSTRACT, "getMessage", GET, null, null);
        program.make(message);
        ClassNode helper = node(HELPER, CoreClasses.OBJECT, Opcodes.ACC_PUBLIC | Opcodes.ACC_SUPER | Opcodes.ACC_FINAL);
        addOf(helper.visitMethod(STATIC, "of", "(Ljava/lang/Throwable;)Ljop/Text;", null, null));
        addLiteral(helper.visitMethod(STATIC, "literal", "(Ljop/Text;)Ljava/lang/String;", null, null));
        program.make(helper);
    }

    private static void addOf(MethodVisitor to) {
        Label other = new Label();
        to.visitVarInsn(Opcodes.ALOAD, 0);
        to.visitTypeInsn(Opcodes.INSTANCEOF, INTERFACE);
        to.visitJumpInsn(Opcodes.IFEQ, other);
        to.visitVarInsn(Opcodes.ALOAD, 0);
        to.visitTypeInsn(Opcodes.CHECKCAST, INTERFACE);
        to.visitMethodInsn(Opcodes.INVOKEINTERFACE, INTERFACE, "getMessage", GET, true);
        to.visitInsn(Opcodes.ARETURN);
        to.visitLabel(other);
        to.visitVarInsn(Opcodes.ALOAD, 0);
        to.visitMethodInsn(Opcodes.INVOKEVIRTUAL, CoreClasses.THROWABLE, "getMessage", "()Ljava/lang/String;", false);
        to.visitMethodInsn(Opcodes.INVOKESTATIC, TEXT, "of", "(Ljava/lang/String;)Ljop/Text;", false);
        to.visitInsn(Opcodes.ARETURN);
    }

    private static void addLiteral(MethodVisitor to) {
        Label other = new Label();
        to.visitVarInsn(Opcodes.ALOAD, 0);
        to.visitJumpInsn(Opcodes.IFNULL, other);
        to.visitVarInsn(Opcodes.ALOAD, 0);
        to.visitMethodInsn(Opcodes.INVOKEVIRTUAL, TEXT, "literal", "()Ljava/lang/String;", false);
        to.visitInsn(Opcodes.ARETURN);
        to.visitLabel(other);
        to.visitInsn(Opcodes.ACONST_NULL);
        to.visitInsn(Opcodes.ARETURN);
    }

    /** A call that gives the text of an exception's message. */
    public MethodInsnNode read() {
        makeHelper();
        return new MethodInsnNode(Opcodes.INVOKESTATIC, HELPER, "of", "(Ljava/lang/Throwable;)Ljop/Text;", false);
    }

    /** A call that gives the literal of which a text was made. */
    public MethodInsnNode literal() {
        makeHelper();
        return new MethodInsnNode(Opcodes.INVOKESTATIC, HELPER, "literal", "(Ljop/Text;)Ljava/lang/String;", false);
    }
}
