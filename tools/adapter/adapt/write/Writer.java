package adapt.write;

import adapt.classes.LoadedClass;
import adapt.classes.Origin;
import adapt.classes.Program;
import adapt.reach.Reach;
import java.util.ArrayList;
import java.util.List;
import org.objectweb.asm.ClassWriter;
import org.objectweb.asm.Opcodes;
import org.objectweb.asm.tree.ClassNode;
import org.objectweb.asm.tree.FieldNode;
import org.objectweb.asm.tree.InsnList;
import org.objectweb.asm.tree.InsnNode;
import org.objectweb.asm.tree.MethodNode;

/** Writes the class files of what is kept, as those of Java 8, with frames that are worked out anew. */
public final class Writer {
    private final Program program;
    private final Reach reach;

    /** For what a reach keeps. */
    public Writer(Program program, Reach reach) {
        this.program = program;
        this.reach = reach;
    }

    /** The class with what is kept of it. */
    public ClassNode kept(LoadedClass of) {
        ClassNode node = new ClassNode();
        ClassNode from = of.node;
        node.version = Opcodes.V1_8;
        node.name = from.name;
        node.superName = from.superName;
        node.interfaces = from.interfaces;
        node.sourceFile = from.sourceFile;
        node.access = access(of);
        List<String> cut = new ArrayList<>();
        for (FieldNode field : from.fields) {
            if (reach.isUsed(field)) {
                field.value = field.value instanceof String && program.isText ? null : field.value;
                node.fields.add(field);
            } else {
                cut.add(field.name);
            }
        }
        for (MethodNode method : from.methods) {
            if (reach.isRun(method) || reach.isDeclared(method)) {
                node.methods.add(reach.isRun(method) ? method : withoutCode(of, method));
            } else {
                cut.add(method.name + method.desc);
            }
        }
        if (!cut.isEmpty() && of.origin == Origin.PROGRAM) {
            program.report.cut(of.name() + ": " + String.join(", ", cut));
        }
        return node;
    }

    /** A class of which no object is made may have methods without code. */
    private int access(LoadedClass of) {
        boolean isOpen = !of.isInterface() && !reach.isInstantiated(of);
        return isOpen ? (of.node.access | Opcodes.ACC_ABSTRACT) & ~(Opcodes.ACC_FINAL | Opcodes.ACC_ENUM) : of.node.access & ~Opcodes.ACC_ENUM;
    }

    /** A method that is named and never run. */
    private MethodNode withoutCode(LoadedClass of, MethodNode method) {
        if ((method.access & Opcodes.ACC_ABSTRACT) != 0) {
            return method;
        }
        program.report.cut(of.name() + ": the code of " + method.name + method.desc + ", which is named and never run");
        MethodNode empty = new MethodNode(method.access & ~(Opcodes.ACC_NATIVE | Opcodes.ACC_SYNCHRONIZED), method.name, method.desc, null, null);
        InsnList code = empty.instructions;
        code.add(new InsnNode(Opcodes.ACONST_NULL));
        code.add(new InsnNode(Opcodes.ATHROW));
        return empty;
    }

    /** The bytes of a class file. */
    public byte[] bytes(ClassNode node) {
        ClassWriter writer = new ClassWriter(ClassWriter.COMPUTE_FRAMES) {
            @Override
            protected String getCommonSuperClass(String first, String second) {
                return program.common(first, second);
            }
        };
        node.accept(writer);
        return writer.toByteArray();
    }
}
