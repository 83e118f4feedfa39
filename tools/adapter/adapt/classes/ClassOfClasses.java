package adapt.classes;

import org.objectweb.asm.Label;
import org.objectweb.asm.MethodVisitor;
import org.objectweb.asm.Opcodes;
import org.objectweb.asm.tree.ClassNode;

/** Makes `java/lang/Class`, whose objects know the names of classes and which of the others stand above them. */
public final class ClassOfClasses {
    public static final String NAME = "java/lang/Class";
    /** The field with the number of a class, and that with a digit for each number, 1 where that class is this one or stands above it. */
    public static final String NUMBER = "number";
    public static final String ABOVE = "above";
    /** The field with the name that the source gives a class. */
    public static final String SIMPLE_NAME = "simpleName";
    /** The descriptor of `isAssignableFrom`. */
    public static final String IS_ASSIGNABLE = "(Ljava/lang/Class;)Z";
    private static final String IS_INSTANCE = "(Ljava/lang/Object;)Z";

    private ClassOfClasses() {
    }

    /** The class, whose names are of the type of a descriptor. */
    static ClassNode node(String string) {
        ClassNode node = new ClassNode();
        node.version = Opcodes.V1_8;
        node.name = NAME;
        node.superName = CoreClasses.OBJECT;
        node.access = Opcodes.ACC_PUBLIC | Opcodes.ACC_SYNTHETIC | Opcodes.ACC_SUPER | Opcodes.ACC_FINAL;
        node.visitField(Opcodes.ACC_PRIVATE | Opcodes.ACC_FINAL, "name", string, null, null);
        MethodVisitor made = node.visitMethod(Opcodes.ACC_PUBLIC, "<init>", "(" + string + ")V", null, null);
        made.visitVarInsn(Opcodes.ALOAD, 0);
        made.visitMethodInsn(Opcodes.INVOKESPECIAL, CoreClasses.OBJECT, "<init>", "()V", false);
        made.visitVarInsn(Opcodes.ALOAD, 0);
        made.visitVarInsn(Opcodes.ALOAD, 1);
        made.visitFieldInsn(Opcodes.PUTFIELD, NAME, "name", string);
        made.visitInsn(Opcodes.RETURN);
        node.visitField(Opcodes.ACC_PUBLIC, SIMPLE_NAME, string, null, null);
        addGetter(node, "getName", "name", string);
        addGetter(node, "getSimpleName", SIMPLE_NAME, string);
        addAssignable(node);
        addInstance(node);
        addCast(node);
        return node;
    }

    /** Adds a method that gives what a field has. */
    private static void addGetter(ClassNode node, String method, String field, String type) {
        MethodVisitor get = node.visitMethod(Opcodes.ACC_PUBLIC, method, "()" + type, null, null);
        get.visitVarInsn(Opcodes.ALOAD, 0);
        get.visitFieldInsn(Opcodes.GETFIELD, NAME, field, type);
        get.visitInsn(Opcodes.ARETURN);
    }

    /** Adds `isInstance`: whether an object isn't null and this one is assignable from its class. */
    private static void addInstance(ClassNode node) {
        MethodVisitor is = node.visitMethod(Opcodes.ACC_PUBLIC, "isInstance", IS_INSTANCE, null, null);
        Label none = new Label();
        is.visitVarInsn(Opcodes.ALOAD, 1);
        is.visitJumpInsn(Opcodes.IFNULL, none);
        is.visitVarInsn(Opcodes.ALOAD, 0);
        is.visitVarInsn(Opcodes.ALOAD, 1);
        is.visitMethodInsn(Opcodes.INVOKEVIRTUAL, CoreClasses.OBJECT, "getClass", "()Ljava/lang/Class;", false);
        is.visitMethodInsn(Opcodes.INVOKEVIRTUAL, NAME, "isAssignableFrom", IS_ASSIGNABLE, false);
        is.visitInsn(Opcodes.IRETURN);
        is.visitLabel(none);
        is.visitInsn(Opcodes.ICONST_0);
        is.visitInsn(Opcodes.IRETURN);
    }

    /** Adds `cast`: gives null, and what is an instance. */
    private static void addCast(ClassNode node) {
        MethodVisitor cast = node.visitMethod(Opcodes.ACC_PUBLIC, "cast", "(Ljava/lang/Object;)Ljava/lang/Object;", null, null);
        Label good = new Label();
        cast.visitVarInsn(Opcodes.ALOAD, 1);
        cast.visitJumpInsn(Opcodes.IFNULL, good);
        cast.visitVarInsn(Opcodes.ALOAD, 0);
        cast.visitVarInsn(Opcodes.ALOAD, 1);
        cast.visitMethodInsn(Opcodes.INVOKEVIRTUAL, NAME, "isInstance", IS_INSTANCE, false);
        cast.visitJumpInsn(Opcodes.IFNE, good);
        cast.visitTypeInsn(Opcodes.NEW, "java/lang/ClassCastException");
        cast.visitInsn(Opcodes.DUP);
        cast.visitMethodInsn(Opcodes.INVOKESPECIAL, "java/lang/ClassCastException", "<init>", "()V", false);
        cast.visitInsn(Opcodes.ATHROW);
        cast.visitLabel(good);
        cast.visitVarInsn(Opcodes.ALOAD, 1);
        cast.visitInsn(Opcodes.ARETURN);
    }

    /** Adds `isAssignableFrom`: the other class has a 1 at the place of this one's number. */
    private static void addAssignable(ClassNode node) {
        node.visitField(Opcodes.ACC_PUBLIC, NUMBER, "I", null, null);
        node.visitField(Opcodes.ACC_PUBLIC, ABOVE, "L" + CoreClasses.STRING + ";", null, null);
        MethodVisitor is = node.visitMethod(Opcodes.ACC_PUBLIC, "isAssignableFrom", IS_ASSIGNABLE, null, null);
        is.visitVarInsn(Opcodes.ALOAD, 1);
        is.visitFieldInsn(Opcodes.GETFIELD, NAME, ABOVE, "L" + CoreClasses.STRING + ";");
        is.visitVarInsn(Opcodes.ALOAD, 0);
        is.visitFieldInsn(Opcodes.GETFIELD, NAME, NUMBER, "I");
        is.visitMethodInsn(Opcodes.INVOKEVIRTUAL, CoreClasses.STRING, "charAt", "(I)C", false);
        is.visitInsn(Opcodes.ICONST_1);
        is.visitInsn(Opcodes.IAND);
        is.visitInsn(Opcodes.IRETURN);
    }
}
