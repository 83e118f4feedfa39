package adapt.change;

import adapt.classes.Found;
import adapt.classes.LoadedClass;
import adapt.classes.Member;
import adapt.classes.Program;
import java.util.HashMap;
import java.util.Map;
import org.objectweb.asm.Handle;
import org.objectweb.asm.Opcodes;
import org.objectweb.asm.Type;
import org.objectweb.asm.tree.AbstractInsnNode;
import org.objectweb.asm.tree.FieldInsnNode;
import org.objectweb.asm.tree.InvokeDynamicInsnNode;
import org.objectweb.asm.tree.MethodInsnNode;
import org.objectweb.asm.tree.MethodNode;

/** Lambdas and method references: classes of their own; one without captured values has one object. */
public final class Lambdas implements Change {
    private final Program program;
    private final PrivateCalls privateCalls;
    private final Map<String, Integer> numbers = new HashMap<>();

    /** For the classes of a program. */
    public Lambdas(Program program, PrivateCalls privateCalls) {
        this.program = program;
        this.privateCalls = privateCalls;
    }

    @Override
    public void apply(LoadedClass owner, MethodNode method) {
        for (AbstractInsnNode node : method.instructions.toArray()) {
            if (node instanceof InvokeDynamicInsnNode site && site.bsm.getOwner().equals("java/lang/invoke/LambdaMetafactory")) {
                MethodInsnNode target = target((Handle) site.bsmArgs[1]);
                if (target != null) {
                    replace(owner, method, site, target);
                }
            }
        }
    }

    private void replace(LoadedClass owner, MethodNode method, InvokeDynamicInsnNode site, MethodInsnNode target) {
        int number = numbers.merge(owner.name(), 1, Integer::sum);
        String name = owner.name() + "$Lambda$" + number;
        LambdaClass made = new LambdaClass(name, owner.node.sourceFile, site, target);
        program.make(made.node());
        boolean isPlain = Type.getArgumentTypes(site.desc).length == 0;
        program.report.replace(Code.place(owner, method, site), "lambda", name);
        if (isPlain) {
            method.instructions.set(site, new FieldInsnNode(Opcodes.GETSTATIC, name, LambdaClass.INSTANCE, Type.getReturnType(site.desc).getDescriptor()));
        } else {
            program.report.note(Code.place(owner, method, site) + ": a lambda with captured values takes memory at each evaluation");
            method.instructions.set(site, Code.invokeStatic(name, LambdaClass.MAKE, site.desc));
        }
    }

    /** The call that the lambda makes: what its handle names, or a static method that other classes can call in its place. */
    private MethodInsnNode target(Handle handle) {
        Member code = program.interfaceCode.moved(handle.getOwner(), handle.getName(), handle.getDesc());
        Found<MethodNode> found = program.method(handle.getOwner(), handle.getName(), handle.getDesc());
        boolean isCode = code != null && (found == null || handle.getTag() == Opcodes.H_INVOKESPECIAL);
        if (isCode) {
            return Code.invokeStatic(code.owner(), code.name(), code.descriptor());
        }
        if (found != null && handle.getTag() != Opcodes.H_NEWINVOKESPECIAL && isInstanceByName(handle, found.member())) {
            MethodNode door = privateCalls.door(found.owner(), found.member());
            return Code.invokeStatic(found.owner().name(), door.name, door.desc);
        }
        if (found != null) {
            found.member().access &= ~Opcodes.ACC_PRIVATE;
        }
        return switch (handle.getTag()) {
            case Opcodes.H_INVOKESTATIC -> Code.invokeStatic(handle.getOwner(), handle.getName(), handle.getDesc());
            case Opcodes.H_INVOKEVIRTUAL -> new MethodInsnNode(Opcodes.INVOKEVIRTUAL, handle.getOwner(), handle.getName(), handle.getDesc(), false);
            case Opcodes.H_INVOKEINTERFACE -> new MethodInsnNode(Opcodes.INVOKEINTERFACE, handle.getOwner(), handle.getName(), handle.getDesc(), true);
            case Opcodes.H_NEWINVOKESPECIAL -> new MethodInsnNode(Opcodes.INVOKESPECIAL, handle.getOwner(), handle.getName(), handle.getDesc(), false);
            default -> null;
        };
    }

    /** Whether the handle takes an instance method without regard to the receiver's class. */
    private static boolean isInstanceByName(Handle handle, MethodNode method) {
        boolean isStatic = (method.access & Opcodes.ACC_STATIC) != 0;
        return !isStatic && (handle.getTag() == Opcodes.H_INVOKESPECIAL || (method.access & Opcodes.ACC_PRIVATE) != 0);
    }
}
