package adapt.classes;

import java.util.ArrayList;
import java.util.HashMap;
import java.util.LinkedHashMap;
import java.util.List;
import java.util.Map;
import org.objectweb.asm.Opcodes;
import org.objectweb.asm.Type;
import org.objectweb.asm.tree.ClassNode;
import org.objectweb.asm.tree.InsnList;
import org.objectweb.asm.tree.InsnNode;
import org.objectweb.asm.tree.MethodInsnNode;
import org.objectweb.asm.tree.MethodNode;
import org.objectweb.asm.tree.VarInsnNode;

/** Moves the code of interfaces into classes of their own, and lets classes call default methods that they inherit. */
public final class InterfaceCode {
    private final Program program;
    private final Map<Member, Member> moved = new HashMap<>();
    private final Map<String, String> interfaces = new HashMap<>();
    private final Map<MethodNode, Member> forwards = new HashMap<>();

    InterfaceCode(Program program) {
        this.program = program;
    }

    /** Where the code of an interface's method went, or null. */
    public Member moved(String owner, String name, String descriptor) {
        return moved.get(new Member(owner, name, descriptor));
    }

    /** Of which interface a class has the code, or null. */
    public String interfaceOf(String codeClass) {
        return interfaces.get(codeClass);
    }

    /** The class that has the code of an interface, which is made where there is none yet. */
    public LoadedClass codeClass(LoadedClass of) {
        String name = of.name() + "$Code";
        if (interfaces.containsKey(name)) {
            return program.find(name);
        }
        interfaces.put(name, of.name());
        ClassNode node = new ClassNode();
        node.version = Opcodes.V1_8;
        node.name = name;
        node.superName = CoreClasses.OBJECT;
        node.sourceFile = of.node.sourceFile;
        node.access = Opcodes.ACC_PUBLIC | Opcodes.ACC_SUPER | Opcodes.ACC_FINAL | Opcodes.ACC_SYNTHETIC;
        return program.make(node);
    }

    /** Moves all code but that of the static initialiser, and drops what each object has anyway. */
    void move(LoadedClass from) {
        for (MethodNode method : new ArrayList<>(from.node.methods)) {
            boolean isAbstract = (method.access & Opcodes.ACC_ABSTRACT) != 0;
            if (isAbstract && ObjectInterfaces.isOfObject(method) && from.origin != Origin.LIBRARY) {
                from.remove(method);
            } else if (!isAbstract && !method.name.equals("<clinit>")) {
                move(from, method);
            }
        }
    }

    private void move(LoadedClass from, MethodNode method) {
        LoadedClass to = codeClass(from);
        boolean isStatic = (method.access & Opcodes.ACC_STATIC) != 0;
        String descriptor = isStatic ? method.desc : "(L" + from.name() + ";" + method.desc.substring(1);
        String name = to.method(method.name, descriptor) == null ? method.name : to.freshName(method.name);
        MethodNode code = new MethodNode(Opcodes.ACC_PUBLIC | Opcodes.ACC_STATIC, name, descriptor, null, null);
        code.instructions = method.instructions;
        code.tryCatchBlocks = method.tryCatchBlocks;
        code.maxLocals = method.maxLocals;
        code.maxStack = method.maxStack;
        to.add(code);
        moved.put(new Member(from.name(), method.name, method.desc), new Member(to.name(), name, descriptor));
        if (isStatic || (method.access & Opcodes.ACC_PRIVATE) != 0) {
            from.remove(method);
        } else {
            method.instructions = new InsnList();
            method.tryCatchBlocks = new ArrayList<>();
            method.access |= Opcodes.ACC_ABSTRACT;
        }
    }

    /** Adds to a class the methods that call the default methods which are selected in it. */
    void forward(LoadedClass to) {
        Map<String, MethodNode> defaults = new LinkedHashMap<>();
        List<LoadedClass> above = program.above(to);
        for (LoadedClass each : above) {
            for (MethodNode method : each.isInterface() ? each.node.methods : List.<MethodNode>of()) {
                if (moved(each.name(), method.name, method.desc) != null) {
                    defaults.put(method.name + method.desc, method);
                }
            }
        }
        for (MethodNode method : defaults.values()) {
            Member code = maximal(above, method);
            Found<MethodNode> own = program.selected(to, method.name, method.desc);
            boolean isReal = own != null && !forwards.containsKey(own.member());
            boolean isSame = own != null && code != null && code.equals(forwards.get(own.member()));
            if (code != null && !isReal && !isSame) {
                addForward(to, method, code);
            }
        }
    }

    /** The code of the one interface, below no other one that declares the method, if that has code. */
    private Member maximal(List<LoadedClass> above, MethodNode method) {
        List<LoadedClass> declaring = above.stream().filter(each -> each.isInterface() && each.method(method.name, method.desc) != null).toList();
        List<LoadedClass> lowest = declaring.stream().filter(each -> declaring.stream().noneMatch(
                other -> other != each && program.isBelow(other, each.name()))).toList();
        return lowest.size() == 1 ? moved(lowest.get(0).name(), method.name, method.desc) : null;
    }

    private void addForward(LoadedClass to, MethodNode method, Member code) {
        MethodNode forward = new MethodNode(Opcodes.ACC_PUBLIC | Opcodes.ACC_SYNTHETIC, method.name, method.desc, null, null);
        forward.instructions.add(new VarInsnNode(Opcodes.ALOAD, 0));
        int local = 1;
        for (Type type : Type.getArgumentTypes(method.desc)) {
            forward.instructions.add(new VarInsnNode(type.getOpcode(Opcodes.ILOAD), local));
            local += type.getSize();
        }
        forward.instructions.add(new MethodInsnNode(Opcodes.INVOKESTATIC, code.owner(), code.name(), code.descriptor()));
        forward.instructions.add(new InsnNode(Type.getReturnType(method.desc).getOpcode(Opcodes.IRETURN)));
        forward.maxLocals = local;
        to.add(forward);
        forwards.put(forward, code);
    }
}
