package adapt.change;

import adapt.classes.ClassOfClasses;
import adapt.classes.CoreClasses;
import org.objectweb.asm.Label;
import org.objectweb.asm.MethodVisitor;
import org.objectweb.asm.Opcodes;
import org.objectweb.asm.tree.ClassNode;

/** The class files by which class literals and `getClass` work. */
final class ClassFiles {
    /** The class whose static fields are the objects. */
    static final String TABLE = "jop/made/Classes";
    /** The interface by which an object gives that of its class. */
    static final String KIND = "jop/made/Kind";
    /** Its method. */
    static final String GET = "classOfThis";
    /** The type of the objects. */
    static final String TYPE = "Ljava/lang/Class;";
    private static final String CLASS = "java/lang/Class";

    private ClassFiles() {
    }

    private static ClassNode node(String name, int access) {
        ClassNode node = new ClassNode();
        node.version = Opcodes.V1_8;
        node.name = name;
        node.superName = CoreClasses.OBJECT;
        node.access = Opcodes.ACC_PUBLIC | Opcodes.ACC_SYNTHETIC | access;
        return node;
    }

    /** The interface. */
    static ClassNode ofKind() {
        ClassNode node = node(KIND, Opcodes.ACC_INTERFACE | Opcodes.ACC_ABSTRACT);
        node.visitMethod(Opcodes.ACC_PUBLIC | Opcodes.ACC_ABSTRACT, GET, "()" + TYPE, null, null);
        return node;
    }

    /** The table, whose methods name what they will need when they are filled. */
    static ClassNode ofTable(String of, String string) {
        ClassNode node = node(TABLE, Opcodes.ACC_SUPER | Opcodes.ACC_FINAL);
        MethodVisitor first = node.visitMethod(Opcodes.ACC_STATIC, "<clinit>", "()V", null, null);
        first.visitTypeInsn(Opcodes.NEW, CLASS);
        first.visitInsn(Opcodes.DUP);
        first.visitLdcInsn("");
        first.visitMethodInsn(Opcodes.INVOKESPECIAL, CLASS, "<init>", "(" + string + ")V", false);
        first.visitInsn(Opcodes.POP);
        first.visitInsn(Opcodes.RETURN);
        MethodVisitor get = node.visitMethod(Opcodes.ACC_PUBLIC | Opcodes.ACC_STATIC, "of", of, null, null);
        Label other = new Label();
        get.visitVarInsn(Opcodes.ALOAD, 0);
        get.visitJumpInsn(Opcodes.IFNULL, other);
        get.visitVarInsn(Opcodes.ALOAD, 0);
        get.visitTypeInsn(Opcodes.CHECKCAST, KIND);
        get.visitMethodInsn(Opcodes.INVOKEINTERFACE, KIND, GET, "()" + TYPE, true);
        get.visitInsn(Opcodes.ARETURN);
        get.visitLabel(other);
        addThrow(get, "java/lang/NullPointerException");
        return node;
    }

    /** Makes the object of a class and puts it into its field. */
    static void addMaking(MethodVisitor to, String name, String field, boolean isText) {
        to.visitTypeInsn(Opcodes.NEW, CLASS);
        to.visitInsn(Opcodes.DUP);
        addName(to, name, isText);
        to.visitMethodInsn(Opcodes.INVOKESPECIAL, CLASS, "<init>", isText ? "(Ljop/Text;)V" : "(Ljava/lang/String;)V", false);
        to.visitFieldInsn(Opcodes.PUTSTATIC, TABLE, field, TYPE);
    }

    private static void addName(MethodVisitor to, String name, boolean isText) {
        to.visitLdcInsn(name);
        if (isText) {
            to.visitMethodInsn(Opcodes.INVOKESTATIC, "jop/Text", "of", "(Ljava/lang/String;)Ljop/Text;", false);
        }
    }

    /** Keeps in the object of a class the name that the source gives it. */
    static void addSimpleName(MethodVisitor to, String field, String name, boolean isText) {
        to.visitFieldInsn(Opcodes.GETSTATIC, TABLE, field, TYPE);
        addName(to, name, isText);
        to.visitFieldInsn(Opcodes.PUTFIELD, CLASS, ClassOfClasses.SIMPLE_NAME, isText ? "Ljop/Text;" : "Ljava/lang/String;");
    }

    /** Keeps in the object of a class its number, and the digits that tell which classes it is, or stands below. */
    static void addOrder(MethodVisitor to, String field, int number, String above) {
        to.visitFieldInsn(Opcodes.GETSTATIC, TABLE, field, TYPE);
        to.visitLdcInsn(number);
        to.visitFieldInsn(Opcodes.PUTFIELD, CLASS, ClassOfClasses.NUMBER, "I");
        to.visitFieldInsn(Opcodes.GETSTATIC, TABLE, field, TYPE);
        to.visitLdcInsn(above);
        to.visitFieldInsn(Opcodes.PUTFIELD, CLASS, ClassOfClasses.ABOVE, "Ljava/lang/String;");
    }

    /** Raises a new exception. */
    static void addThrow(MethodVisitor to, String exception) {
        to.visitTypeInsn(Opcodes.NEW, exception);
        to.visitInsn(Opcodes.DUP);
        to.visitMethodInsn(Opcodes.INVOKESPECIAL, exception, "<init>", "()V", false);
        to.visitInsn(Opcodes.ATHROW);
    }
}
