package adapt.classes;

import java.util.Arrays;
import org.objectweb.asm.Opcodes;
import org.objectweb.asm.Type;
import org.objectweb.asm.tree.ClassNode;
import org.objectweb.asm.tree.MethodNode;

/** Default methods that interfaces of the library would have, if the linker took code of interfaces, and numbers that a call of adapt gives. */
public final class LibraryDefaults {
    /** The class that says how many entries a map has at most. */
    public static final String CAPACITY = "jop/Capacity";
    /** The class whose static methods are default methods of the interfaces that their first arguments have. */
    static final String DEFAULTS = "jop/Defaults";
    private static final String UNSUPPORTED = "java/lang/UnsupportedOperationException";

    private LibraryDefaults() {
    }

    /** Adds to an interface the default methods that a class of the library has for it, which may be null. */
    static void add(ClassNode node, byte[] defaults, boolean isText) {
        if ((node.access & Opcodes.ACC_INTERFACE) == 0 || defaults == null) {
            return;
        }
        for (MethodNode method : ClassFiles.read(defaults, isText).methods) {
            Type[] types = Type.getArgumentTypes(method.desc);
            boolean isPublic = (method.access & Opcodes.ACC_PUBLIC) != 0 && (method.access & Opcodes.ACC_STATIC) != 0;
            if (isPublic && types.length > 0 && types[0].getInternalName().equals(node.name)) {
                node.methods.add(ofStatic(method, types));
            }
        }
    }

    private static MethodNode ofStatic(MethodNode method, Type[] types) {
        Type result = Type.getReturnType(method.desc);
        String descriptor = Type.getMethodDescriptor(result, Arrays.copyOfRange(types, 1, types.length));
        MethodNode made = new MethodNode(Opcodes.ACC_PUBLIC, method.name, descriptor, null, null);
        int local = 0;
        for (Type type : types) {
            made.visitVarInsn(type.getOpcode(Opcodes.ILOAD), local);
            local += type.getSize();
        }
        made.visitMethodInsn(Opcodes.INVOKESTATIC, DEFAULTS, method.name, method.desc, false);
        made.visitInsn(result.getOpcode(Opcodes.IRETURN));
        made.maxLocals = local;
        return made;
    }

    /** Adds those of an interface: `Iterator.remove`, which raises; and lets maps hold so many entries. */
    static void add(ClassNode node, boolean isText, int elements) {
        if (node.name.equals(CAPACITY)) {
            MethodNode entries = node.methods.stream().filter(method -> method.name.equals("entries")).findFirst().orElseThrow();
            entries.instructions.clear();
            entries.visitLdcInsn(elements);
            entries.visitInsn(Opcodes.IRETURN);
        }
        if (node.name.equals("java/util/Iterator")) {
            MethodNode remove = node.methods.stream().filter(method -> method.name.equals("remove")).findFirst().orElseThrow();
            remove.access &= ~Opcodes.ACC_ABSTRACT;
            remove.visitTypeInsn(Opcodes.NEW, UNSUPPORTED);
            remove.visitInsn(Opcodes.DUP);
            remove.visitLdcInsn("remove");
            remove.visitMethodInsn(Opcodes.INVOKESPECIAL, UNSUPPORTED, "<init>", isText ? "(Ljop/Text;)V" : "(Ljava/lang/String;)V", false);
            remove.visitInsn(Opcodes.ATHROW);
            remove.maxLocals = 1;
        }
    }
}
