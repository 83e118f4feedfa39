package adapt.change;

import adapt.classes.LoadedClass;
import adapt.classes.Program;
import adapt.report.Place;
import org.objectweb.asm.Opcodes;
import org.objectweb.asm.Type;
import org.objectweb.asm.tree.AbstractInsnNode;
import org.objectweb.asm.tree.InsnList;
import org.objectweb.asm.tree.InsnNode;
import org.objectweb.asm.tree.IntInsnNode;
import org.objectweb.asm.tree.LdcInsnNode;
import org.objectweb.asm.tree.MethodInsnNode;
import org.objectweb.asm.tree.MethodNode;
import org.objectweb.asm.tree.VarInsnNode;

/** Small words about instructions. */
final class Code {
    private Code() {
    }

    /** The next instruction behind labels and line numbers, or null. */
    static AbstractInsnNode next(AbstractInsnNode from) {
        AbstractInsnNode node = from.getNext();
        while (node != null && node.getOpcode() < 0) {
            node = node.getNext();
        }
        return node;
    }

    /** Whether an instruction calls this method, of any class where the owner is null. */
    static boolean isCall(AbstractInsnNode node, String owner, String name, String descriptor) {
        return node instanceof MethodInsnNode call && call.name.equals(name) && call.desc.equals(descriptor)
                && (owner == null || call.owner.equals(owner));
    }

    /** A call of a static method. */
    static MethodInsnNode invokeStatic(String owner, String name, String descriptor) {
        return new MethodInsnNode(Opcodes.INVOKESTATIC, owner, name, descriptor, false);
    }

    /** An instruction that pushes a small int. */
    static AbstractInsnNode push(int value) {
        if (value >= -1 && value <= 5) {
            return new InsnNode(Opcodes.ICONST_0 + value);
        }
        if (value >= Short.MIN_VALUE && value <= Short.MAX_VALUE) {
            return new IntInsnNode(value >= Byte.MIN_VALUE && value <= Byte.MAX_VALUE ? Opcodes.BIPUSH : Opcodes.SIPUSH, value);
        }
        return new LdcInsnNode(value);
    }

    /** Loads all arguments of a static method. */
    static int loadArguments(InsnList to, String descriptor, int first) {
        int local = first;
        for (Type type : Type.getArgumentTypes(descriptor)) {
            to.add(new VarInsnNode(type.getOpcode(Opcodes.ILOAD), local));
            local += type.getSize();
        }
        return local;
    }

    /** The place of an instruction. */
    static Place place(LoadedClass owner, MethodNode method, AbstractInsnNode at) {
        return Place.of(owner.node, method, at);
    }

    /** The class in which a method that helps another class stands: that class, or the one that has an interface's code. */
    static LoadedClass helperOwner(Program program, LoadedClass owner) {
        return owner.isInterface() ? program.interfaceCode.codeClass(owner) : owner;
    }

    /** A new static method of a class, without instructions yet. */
    static MethodNode addHelper(LoadedClass to, String word, String descriptor) {
        int access = Opcodes.ACC_STATIC | Opcodes.ACC_SYNTHETIC;
        MethodNode helper = new MethodNode(access, to.freshName(word), descriptor, null, null);
        to.add(helper);
        return helper;
    }
}
