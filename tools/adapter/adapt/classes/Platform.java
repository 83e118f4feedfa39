package adapt.classes;

import java.io.IOException;
import java.io.InputStream;
import java.io.UncheckedIOException;
import java.util.ArrayDeque;
import java.util.Deque;
import java.util.List;
import org.objectweb.asm.ClassReader;
import org.objectweb.asm.Opcodes;
import org.objectweb.asm.tree.ClassNode;
import org.objectweb.asm.tree.MethodNode;
import org.objectweb.asm.tree.VarInsnNode;
import org.objectweb.asm.tree.MethodInsnNode;
import org.objectweb.asm.tree.InsnNode;

/** Classes of the Java virtual machine on which this runs: what they are called, what they stand below, and which methods without code interfaces have. */
public final class Platform {
    /** How the names of the classes of the standard library begin. */
    private static final List<String> STANDARD = List.of("java/", "javax/", "org/w3c/dom/", "org/xml/sax/");
    /** What each object has, whatever an interface says. */
    private static final List<String> OF_OBJECT = List.of("equals(Ljava/lang/Object;)Z", "hashCode()I", "toString()Ljava/lang/String;");

    private Platform() {
    }

    /** A class without members of a name that the platform has, or null; an exception has its plain constructors, an interface its methods without code. */
    static ClassNode find(String name) {
        ClassNode from = read(name);
        if (from == null) {
            return null;
        }
        ClassNode node = new ClassNode();
        node.version = Opcodes.V1_8;
        node.name = name;
        node.superName = from.superName;
        node.interfaces = from.interfaces;
        node.access = from.access & (Opcodes.ACC_PUBLIC | Opcodes.ACC_ABSTRACT | Opcodes.ACC_INTERFACE | Opcodes.ACC_SUPER);
        if ((from.access & Opcodes.ACC_INTERFACE) != 0) {
            from.methods.stream().filter(Platform::isOfImplementers)
                    .forEach(method -> node.methods.add(new MethodNode(method.access, method.name, method.desc, null, null)));
        }
        if (isThrowable(from)) {
            addConstructor(node, from, "()V");
            addConstructor(node, from, "(Ljava/lang/String;)V");
        }
        return node;
    }

    /** Whether the classes that implement an interface have the method, and not each object. */
    private static boolean isOfImplementers(MethodNode method) {
        return (method.access & Opcodes.ACC_ABSTRACT) != 0 && !OF_OBJECT.contains(method.name + method.desc);
    }

    /** The class of the platform that has a method or a field which was found nowhere, where there is one; else the class that was named. */
    public static String declaring(Program program, String of, String member, String descriptor) {
        String string = descriptor.replace("L" + TextTypes.TEXT + ";", "L" + CoreClasses.STRING + ";");
        String name = member.equals("toText") && string.equals("()Ljava/lang/String;") ? "toString" : member;
        Deque<String> waiting = new ArrayDeque<>(List.of(of.replace(TextTypes.TEXT, CoreClasses.STRING)));
        while (!waiting.isEmpty()) {
            String each = waiting.remove();
            ClassNode node = read(each);
            boolean isThere = node != null && (node.methods.stream().anyMatch(it -> it.name.equals(name) && it.desc.equals(string))
                    || node.fields.stream().anyMatch(it -> it.name.equals(name) && it.desc.equals(string)));
            if (isThere) {
                return each;
            }
            LoadedClass own = node == null ? program.find(each) : null;
            ClassNode from = own == null ? node : own.node;
            if (from != null) {
                waiting.addAll(from.superName == null ? List.of() : List.of(from.superName));
                waiting.addAll(from.interfaces);
            }
        }
        return of.replace(TextTypes.TEXT, CoreClasses.STRING);
    }

    private static ClassNode read(String name) {
        try (InputStream in = ClassLoader.getSystemResourceAsStream(name + ".class")) {
            if (in == null || STANDARD.stream().noneMatch(name::startsWith)) {
                return null;
            }
            ClassNode node = new ClassNode();
            new ClassReader(in.readAllBytes()).accept(node, ClassReader.SKIP_DEBUG | ClassReader.SKIP_FRAMES);
            return node;
        } catch (IOException fault) {
            throw new UncheckedIOException(fault);
        }
    }

    private static boolean isThrowable(ClassNode node) {
        for (ClassNode each = node; each != null && each.superName != null; each = read(each.superName)) {
            if (each.name.equals(CoreClasses.THROWABLE)) {
                return true;
            }
        }
        return false;
    }

    /** Adds a constructor that calls the superclass's, where the platform's does just that. */
    private static void addConstructor(ClassNode node, ClassNode from, String descriptor) {
        for (MethodNode method : from.methods) {
            if (method.name.equals("<init>") && method.desc.equals(descriptor) && isPlain(method)) {
                node.methods.add(plain(node.superName, descriptor));
            }
        }
    }

    private static boolean isPlain(MethodNode method) {
        List<Integer> wanted = method.desc.equals("()V") ? List.of(Opcodes.ALOAD, Opcodes.INVOKESPECIAL, Opcodes.RETURN)
                : List.of(Opcodes.ALOAD, Opcodes.ALOAD, Opcodes.INVOKESPECIAL, Opcodes.RETURN);
        List<Integer> opcodes = new java.util.ArrayList<>();
        method.instructions.forEach(each -> {
            if (each.getOpcode() >= 0) {
                opcodes.add(each.getOpcode());
            }
        });
        return opcodes.equals(wanted);
    }

    private static MethodNode plain(String superclass, String descriptor) {
        MethodNode method = new MethodNode(Opcodes.ACC_PUBLIC, "<init>", descriptor, null, null);
        method.instructions.add(new VarInsnNode(Opcodes.ALOAD, 0));
        if (!descriptor.equals("()V")) {
            method.instructions.add(new VarInsnNode(Opcodes.ALOAD, 1));
        }
        method.instructions.add(new MethodInsnNode(Opcodes.INVOKESPECIAL, superclass, "<init>", descriptor));
        method.instructions.add(new InsnNode(Opcodes.RETURN));
        return method;
    }
}
