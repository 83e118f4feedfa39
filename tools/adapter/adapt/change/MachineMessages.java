package adapt.change;

import adapt.classes.CoreClasses;
import adapt.classes.LoadedClass;
import adapt.classes.Origin;
import adapt.classes.Program;
import java.util.Set;
import org.objectweb.asm.tree.AbstractInsnNode;
import org.objectweb.asm.tree.MethodInsnNode;
import org.objectweb.asm.tree.MethodNode;

/** Notes where a program may see that an exception of the machine or of the library has no message; changes nothing. */
final class MachineMessages implements Change {
    private static final Set<String> CALLS = Set.of("getMessage()Ljava/lang/String;", "getMessage()Ljop/Text;", "toString()Ljava/lang/String;",
            "toText()Ljop/Text;");
    private final Program program;

    MachineMessages(Program program) {
        this.program = program;
    }

    @Override
    public void apply(LoadedClass owner, MethodNode method) {
        for (AbstractInsnNode node : method.instructions) {
            if (node instanceof MethodInsnNode call && CALLS.contains(call.name + call.desc) && program.find(call.owner) != null) {
                note(program, owner, method, node, program.find(call.owner));
            }
        }
    }

    /** Notes that an instruction of the program reads the message, or the text, of an exception of a class or one below it. */
    static void note(Program program, LoadedClass owner, MethodNode method, AbstractInsnNode at, LoadedClass of) {
        boolean isOwn = of.origin == Origin.PROGRAM || of.origin == Origin.MADE;
        if (owner.origin == Origin.PROGRAM && !isOwn && program.isBelow(of, CoreClasses.THROWABLE)) {
            program.report.note(Code.place(owner, method, at) + ": an exception that the machine or the library raises has no message");
        }
    }
}
