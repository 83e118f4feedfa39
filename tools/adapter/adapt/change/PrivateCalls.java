package adapt.change;

import adapt.classes.Found;
import adapt.classes.LoadedClass;
import adapt.classes.Program;
import java.util.HashMap;
import java.util.Map;
import org.objectweb.asm.Opcodes;
import org.objectweb.asm.Type;
import org.objectweb.asm.tree.AbstractInsnNode;
import org.objectweb.asm.tree.FieldInsnNode;
import org.objectweb.asm.tree.FieldNode;
import org.objectweb.asm.tree.InsnNode;
import org.objectweb.asm.tree.MethodInsnNode;
import org.objectweb.asm.tree.MethodNode;

/** Private members that other classes of their nest name (Java 11 and later): package-private, or called through a static method. */
public final class PrivateCalls implements Change {
    private final Program program;
    private final Map<MethodNode, MethodNode> doors = new HashMap<>();

    /** For the classes of a program. */
    public PrivateCalls(Program program) {
        this.program = program;
    }

    @Override
    public void apply(LoadedClass owner, MethodNode method) {
        for (AbstractInsnNode node : method.instructions.toArray()) {
            if (node instanceof FieldInsnNode field) {
                Found<FieldNode> found = program.field(field.owner, field.name, field.desc);
                if (found != null && isOfNest(owner, found.owner())) {
                    found.member().access &= ~Opcodes.ACC_PRIVATE;
                }
            } else if (node instanceof MethodInsnNode call) {
                Found<MethodNode> found = program.method(call.owner, call.name, call.desc);
                if (found != null && (found.member().access & Opcodes.ACC_PRIVATE) != 0) {
                    change(owner, method, call, found);
                }
            }
        }
    }

    private static boolean isOfNest(LoadedClass one, LoadedClass two) {
        return one != two && nest(one).equals(nest(two));
    }

    private static String nest(LoadedClass of) {
        return of.node.nestHostClass == null ? of.name() : of.node.nestHostClass;
    }

    private void change(LoadedClass owner, MethodNode method, MethodInsnNode call, Found<MethodNode> found) {
        boolean isStatic = (found.member().access & Opcodes.ACC_STATIC) != 0;
        if (found.owner() == owner) {
            call.setOpcode(isStatic ? Opcodes.INVOKESTATIC : Opcodes.INVOKESPECIAL);
        } else if (!isOfNest(owner, found.owner())) {
            return;
        } else if (isStatic || call.name.equals("<init>")) {
            found.member().access &= ~Opcodes.ACC_PRIVATE;
        } else {
            MethodNode door = door(found.owner(), found.member());
            method.instructions.set(call, Code.invokeStatic(found.owner().name(), door.name, door.desc));
            program.report.replace(Code.place(owner, method, call), "call of a private method of another class", door.name);
        }
    }

    /** The static method that calls a private one. */
    MethodNode door(LoadedClass owner, MethodNode method) {
        return doors.computeIfAbsent(method, key -> {
            String descriptor = "(L" + owner.name() + ";" + method.desc.substring(1);
            MethodNode door = Code.addHelper(owner, "access", descriptor);
            Code.loadArguments(door.instructions, descriptor, 0);
            door.instructions.add(new MethodInsnNode(Opcodes.INVOKESPECIAL, owner.name(), method.name, method.desc, false));
            door.instructions.add(new InsnNode(Type.getReturnType(descriptor).getOpcode(Opcodes.IRETURN)));
            return door;
        });
    }
}
