package adapt.change;

import java.util.Map;
import org.objectweb.asm.MethodVisitor;
import org.objectweb.asm.Opcodes;
import org.objectweb.asm.Type;

/** What turns a value of one type into one of another, as a lambda's method does: casts, boxes and wider numbers. */
final class Conversion {
    private static final Map<Integer, String> BOXES = Map.of(Type.BOOLEAN, "Boolean", Type.CHAR, "Character", Type.BYTE, "Byte",
            Type.SHORT, "Short", Type.INT, "Integer", Type.LONG, "Long");
    private static final Map<String, Type> UNBOXED = Map.of("java/lang/Boolean", Type.BOOLEAN_TYPE, "java/lang/Character", Type.CHAR_TYPE,
            "java/lang/Byte", Type.BYTE_TYPE, "java/lang/Short", Type.SHORT_TYPE, "java/lang/Integer", Type.INT_TYPE, "java/lang/Long",
            Type.LONG_TYPE);

    private Conversion() {
    }

    /** Converts the value on the stack. */
    static void convert(MethodVisitor to, Type from, Type wanted) {
        if (from.equals(wanted)) {
            return;
        }
        if (wanted.getSort() == Type.VOID) {
            to.visitInsn(from.getSize() == 2 ? Opcodes.POP2 : Opcodes.POP);
        } else if (isReference(from) && isReference(wanted)) {
            cast(to, wanted);
        } else if (isReference(from)) {
            unbox(to, from, wanted);
        } else if (isReference(wanted)) {
            box(to, from);
        } else if (wanted.getSort() == Type.LONG) {
            to.visitInsn(Opcodes.I2L);
        }
    }

    private static boolean isReference(Type type) {
        return type.getSort() == Type.OBJECT || type.getSort() == Type.ARRAY;
    }

    private static void cast(MethodVisitor to, Type wanted) {
        if (!wanted.getInternalName().equals("java/lang/Object")) {
            to.visitTypeInsn(Opcodes.CHECKCAST, wanted.getInternalName());
        }
    }

    private static void box(MethodVisitor to, Type from) {
        String box = "java/lang/" + BOXES.getOrDefault(from.getSort(), "Double");
        to.visitMethodInsn(Opcodes.INVOKESTATIC, box, "valueOf", "(" + from.getDescriptor() + ")L" + box + ";", false);
    }

    private static void unbox(MethodVisitor to, Type from, Type wanted) {
        Type held = UNBOXED.getOrDefault(from.getInternalName(), wanted);
        String box = "java/lang/" + BOXES.getOrDefault(held.getSort(), "Double");
        if (!box.equals(from.getInternalName())) {
            to.visitTypeInsn(Opcodes.CHECKCAST, box);
        }
        to.visitMethodInsn(Opcodes.INVOKEVIRTUAL, box, held.getClassName() + "Value", "()" + held.getDescriptor(), false);
        if (wanted.getSort() == Type.LONG && held.getSort() != Type.LONG) {
            to.visitInsn(Opcodes.I2L);
        }
    }
}
