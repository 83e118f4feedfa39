package adapt.classes;

import org.objectweb.asm.ClassReader;
import org.objectweb.asm.ClassVisitor;
import org.objectweb.asm.MethodVisitor;
import org.objectweb.asm.Opcodes;
import org.objectweb.asm.commons.ClassRemapper;
import org.objectweb.asm.commons.JSRInlinerAdapter;
import org.objectweb.asm.commons.SimpleRemapper;
import org.objectweb.asm.tree.ClassNode;
import org.objectweb.asm.tree.FieldNode;
import org.objectweb.asm.tree.MethodNode;

/** Reads class files of any version without what no instruction needs. */
final class ClassFiles {
    private ClassFiles() {
    }

    /** The class of a file, without frames, annotations and signatures, with subroutines put in line. */
    static ClassNode read(byte[] bytes, boolean isText) {
        ClassNode node = new ClassNode();
        new ClassReader(bytes).accept(withoutSubroutines(node), ClassReader.SKIP_FRAMES);
        ClassNode changed = isText ? TextTypes.changed(node) : node;
        strip(changed);
        return changed;
    }

    /** The class under another name. */
    static ClassNode renamed(ClassNode node, String name) {
        ClassNode other = new ClassNode();
        node.accept(new ClassRemapper(other, new SimpleRemapper(node.name, name)));
        return other;
    }

    private static ClassVisitor withoutSubroutines(ClassNode node) {
        return new ClassVisitor(Opcodes.ASM9, node) {
            @Override
            public MethodVisitor visitMethod(int access, String name, String descriptor, String signature, String[] exceptions) {
                MethodVisitor to = super.visitMethod(access, name, descriptor, signature, exceptions);
                return new JSRInlinerAdapter(to, access, name, descriptor, signature, exceptions);
            }
        };
    }

    private static void strip(ClassNode node) {
        node.signature = null;
        node.visibleAnnotations = null;
        node.invisibleAnnotations = null;
        node.visibleTypeAnnotations = null;
        node.invisibleTypeAnnotations = null;
        node.attrs = null;
        node.innerClasses.removeIf(each -> !each.name.equals(node.name));
        node.outerClass = null;
        node.outerMethod = null;
        node.outerMethodDesc = null;
        node.sourceDebug = null;
        node.access &= ~(Opcodes.ACC_DEPRECATED | Opcodes.ACC_RECORD);
        node.fields.forEach(ClassFiles::strip);
        node.methods.forEach(ClassFiles::strip);
    }

    private static void strip(FieldNode field) {
        field.signature = null;
        field.visibleAnnotations = null;
        field.invisibleAnnotations = null;
        field.visibleTypeAnnotations = null;
        field.invisibleTypeAnnotations = null;
        field.attrs = null;
        field.access &= ~Opcodes.ACC_DEPRECATED;
    }

    private static void strip(MethodNode method) {
        method.signature = null;
        method.visibleAnnotations = null;
        method.invisibleAnnotations = null;
        method.visibleTypeAnnotations = null;
        method.invisibleTypeAnnotations = null;
        method.visibleParameterAnnotations = null;
        method.invisibleParameterAnnotations = null;
        method.visibleLocalVariableAnnotations = null;
        method.invisibleLocalVariableAnnotations = null;
        method.annotationDefault = null;
        method.parameters = null;
        method.localVariables = null;
        method.attrs = null;
        method.exceptions.clear();
        method.access &= ~Opcodes.ACC_DEPRECATED;
        for (var block : method.tryCatchBlocks) {
            block.visibleTypeAnnotations = null;
            block.invisibleTypeAnnotations = null;
        }
    }
}
