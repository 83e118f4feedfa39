package adapt.change;

import adapt.classes.CoreClasses;
import java.lang.invoke.LambdaMetafactory;
import org.objectweb.asm.MethodVisitor;
import org.objectweb.asm.Opcodes;
import org.objectweb.asm.Type;
import org.objectweb.asm.tree.ClassNode;
import org.objectweb.asm.tree.InvokeDynamicInsnNode;
import org.objectweb.asm.tree.MethodInsnNode;

/** The class of a lambda: its captured values as fields, and the one method of its interface, which makes one call. */
final class LambdaClass {
    /** The static field with the object of a lambda without captured values. */
    static final String INSTANCE = "INSTANCE";
    /** The static method that makes an object of captured values. */
    static final String MAKE = "make";
    private final ClassNode node = new ClassNode();
    private final Type[] captured;
    private final Type wanted;
    private final Type instantiated;
    private final MethodInsnNode target;
    private final String interfaceName;

    LambdaClass(String name, String sourceFile, InvokeDynamicInsnNode site, MethodInsnNode target) {
        this.captured = Type.getArgumentTypes(site.desc);
        this.wanted = (Type) site.bsmArgs[0];
        this.instantiated = (Type) site.bsmArgs[2];
        this.target = target;
        this.interfaceName = Type.getReturnType(site.desc).getInternalName();
        node.version = Opcodes.V1_8;
        node.name = name;
        node.superName = CoreClasses.OBJECT;
        node.sourceFile = sourceFile;
        node.interfaces.add(interfaceName);
        node.access = Opcodes.ACC_SUPER | Opcodes.ACC_FINAL | Opcodes.ACC_SYNTHETIC;
        addFields();
        addConstructor();
        addMaker(site.desc);
        addMethod(site.name);
        addBridges(site);
    }

    ClassNode node() {
        return node;
    }

    private void addFields() {
        for (int k = 0; k < captured.length; k++) {
            node.visitField(Opcodes.ACC_PRIVATE | Opcodes.ACC_FINAL, "captured" + k, captured[k].getDescriptor(), null, null);
        }
        if (captured.length == 0) {
            int access = Opcodes.ACC_STATIC | Opcodes.ACC_FINAL;
            node.visitField(access, INSTANCE, "L" + interfaceName + ";", null, null);
            MethodVisitor to = node.visitMethod(Opcodes.ACC_STATIC, "<clinit>", "()V", null, null);
            addNew(to);
            to.visitFieldInsn(Opcodes.PUTSTATIC, node.name, INSTANCE, "L" + interfaceName + ";");
            to.visitInsn(Opcodes.RETURN);
        }
    }

    private void addNew(MethodVisitor to) {
        to.visitTypeInsn(Opcodes.NEW, node.name);
        to.visitInsn(Opcodes.DUP);
        int local = 0;
        for (Type type : captured) {
            to.visitVarInsn(type.getOpcode(Opcodes.ILOAD), local);
            local += type.getSize();
        }
        to.visitMethodInsn(Opcodes.INVOKESPECIAL, node.name, "<init>", Type.getMethodDescriptor(Type.VOID_TYPE, captured), false);
    }

    private void addConstructor() {
        MethodVisitor to = node.visitMethod(0, "<init>", Type.getMethodDescriptor(Type.VOID_TYPE, captured), null, null);
        to.visitVarInsn(Opcodes.ALOAD, 0);
        to.visitMethodInsn(Opcodes.INVOKESPECIAL, CoreClasses.OBJECT, "<init>", "()V", false);
        int local = 1;
        for (int k = 0; k < captured.length; k++) {
            to.visitVarInsn(Opcodes.ALOAD, 0);
            to.visitVarInsn(captured[k].getOpcode(Opcodes.ILOAD), local);
            to.visitFieldInsn(Opcodes.PUTFIELD, node.name, "captured" + k, captured[k].getDescriptor());
            local += captured[k].getSize();
        }
        to.visitInsn(Opcodes.RETURN);
    }

    private void addMaker(String descriptor) {
        if (captured.length > 0) {
            MethodVisitor to = node.visitMethod(Opcodes.ACC_STATIC, MAKE, descriptor, null, null);
            addNew(to);
            to.visitInsn(Opcodes.ARETURN);
        }
    }

    private void addMethod(String name) {
        MethodVisitor to = node.visitMethod(Opcodes.ACC_PUBLIC, name, wanted.getDescriptor(), null, null);
        boolean isNew = target.name.equals("<init>");
        if (isNew) {
            to.visitTypeInsn(Opcodes.NEW, target.owner);
            to.visitInsn(Opcodes.DUP);
        }
        loadArguments(to, targetTypes(isNew));
        to.visitMethodInsn(target.getOpcode(), target.owner, target.name, target.desc, target.itf);
        Type result = isNew ? Type.getObjectType(target.owner) : Type.getReturnType(target.desc);
        Conversion.convert(to, result, instantiated.getReturnType());
        Conversion.convert(to, instantiated.getReturnType(), wanted.getReturnType());
        to.visitInsn(wanted.getReturnType().getOpcode(Opcodes.IRETURN));
    }

    /** What the call takes, the receiver first. */
    private Type[] targetTypes(boolean isNew) {
        Type[] types = Type.getArgumentTypes(target.desc);
        if (isNew || target.getOpcode() == Opcodes.INVOKESTATIC) {
            return types;
        }
        Type[] all = new Type[types.length + 1];
        all[0] = Type.getObjectType(target.owner);
        System.arraycopy(types, 0, all, 1, types.length);
        return all;
    }

    private void loadArguments(MethodVisitor to, Type[] types) {
        for (int k = 0; k < captured.length; k++) {
            to.visitVarInsn(Opcodes.ALOAD, 0);
            to.visitFieldInsn(Opcodes.GETFIELD, node.name, "captured" + k, captured[k].getDescriptor());
            Conversion.convert(to, captured[k], types[k]);
        }
        int local = 1;
        Type[] given = wanted.getArgumentTypes();
        for (int k = 0; k < given.length; k++) {
            to.visitVarInsn(given[k].getOpcode(Opcodes.ILOAD), local);
            Conversion.convert(to, given[k], instantiated.getArgumentTypes()[k]);
            Conversion.convert(to, instantiated.getArgumentTypes()[k], types[captured.length + k]);
            local += given[k].getSize();
        }
    }

    /** The further descriptors and interfaces of an `altMetafactory`. */
    private void addBridges(InvokeDynamicInsnNode site) {
        if (!site.bsm.getName().equals("altMetafactory")) {
            return;
        }
        int flags = (Integer) site.bsmArgs[3];
        int next = 4;
        if ((flags & LambdaMetafactory.FLAG_MARKERS) != 0) {
            int count = (Integer) site.bsmArgs[next++];
            for (int k = 0; k < count; k++) {
                addInterface(((Type) site.bsmArgs[next++]).getInternalName());
            }
        }
        if ((flags & LambdaMetafactory.FLAG_SERIALIZABLE) != 0) {
            addInterface("java/io/Serializable");
        }
        if ((flags & LambdaMetafactory.FLAG_BRIDGES) != 0) {
            int count = (Integer) site.bsmArgs[next++];
            for (int k = 0; k < count; k++) {
                addBridge(site.name, (Type) site.bsmArgs[next++]);
            }
        }
    }

    private void addInterface(String name) {
        if (!node.interfaces.contains(name)) {
            node.interfaces.add(name);
        }
    }

    private void addBridge(String name, Type bridge) {
        MethodVisitor to = node.visitMethod(Opcodes.ACC_PUBLIC | Opcodes.ACC_SYNTHETIC, name, bridge.getDescriptor(), null, null);
        to.visitVarInsn(Opcodes.ALOAD, 0);
        int local = 1;
        for (int k = 0; k < bridge.getArgumentTypes().length; k++) {
            Type type = bridge.getArgumentTypes()[k];
            to.visitVarInsn(type.getOpcode(Opcodes.ILOAD), local);
            Conversion.convert(to, type, wanted.getArgumentTypes()[k]);
            local += type.getSize();
        }
        to.visitMethodInsn(Opcodes.INVOKEVIRTUAL, node.name, name, wanted.getDescriptor(), false);
        to.visitInsn(bridge.getReturnType().getOpcode(Opcodes.IRETURN));
    }
}
