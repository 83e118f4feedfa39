package adapt.change;

import adapt.classes.LoadedClass;
import adapt.classes.Member;
import adapt.classes.Program;
import org.objectweb.asm.Opcodes;
import org.objectweb.asm.tree.AbstractInsnNode;
import org.objectweb.asm.tree.MethodInsnNode;
import org.objectweb.asm.tree.MethodNode;

/** Calls of static and private methods of interfaces, and of defaults by `super`: calls of the class that has their code. */
public final class InterfaceCalls implements Change {
    private final Program program;

    /** For the classes of a program. */
    public InterfaceCalls(Program program) {
        this.program = program;
    }

    @Override
    public void apply(LoadedClass owner, MethodNode method) {
        for (AbstractInsnNode node : method.instructions.toArray()) {
            if (node instanceof MethodInsnNode call && isInterface(call.owner) && !call.name.equals("<init>")) {
                Member to = target(call);
                if (to != null) {
                    program.report.replace(Code.place(owner, method, node), "code of interface " + call.owner, to.owner());
                    method.instructions.set(node, Code.invokeStatic(to.owner(), to.name(), to.descriptor()));
                }
            }
        }
    }

    private boolean isInterface(String name) {
        LoadedClass found = name.startsWith("[") ? null : program.find(name);
        return found != null && found.isInterface();
    }

    /** Where the code is that a call takes, whatever its receiver; null for others. */
    private Member target(MethodInsnNode call) {
        boolean isSelected = call.getOpcode() == Opcodes.INVOKEINTERFACE || call.getOpcode() == Opcodes.INVOKEVIRTUAL;
        if (isSelected && program.method(call.owner, call.name, call.desc) != null) {
            return null;
        }
        for (LoadedClass each : program.above(program.find(call.owner))) {
            Member code = program.interfaceCode.moved(each.name(), call.name, call.desc);
            if (code != null) {
                return code;
            }
        }
        return null;
    }
}
