package adapt.order;

import adapt.classes.Found;
import adapt.classes.LoadedClass;
import adapt.classes.Origin;
import adapt.classes.Program;
import java.util.HashSet;
import java.util.Set;
import java.util.TreeSet;
import org.objectweb.asm.Opcodes;
import org.objectweb.asm.tree.AbstractInsnNode;
import org.objectweb.asm.tree.FieldInsnNode;
import org.objectweb.asm.tree.FieldNode;
import org.objectweb.asm.tree.MethodInsnNode;
import org.objectweb.asm.tree.MethodNode;

/** What a static initialiser does, or sees, beside setting its own class up, so that it matters when it runs. */
final class SideEffects {
    private final Program program;
    private final Calls calls;
    private final Set<FieldNode> setLater = new HashSet<>();

    /** Of a program that begins with a method of a class: the static fields that are set from there on are set later than all initialisers. */
    SideEffects(Program program, Calls calls, LoadedClass main) {
        this.program = program;
        this.calls = calls;
        MethodNode first = main.method("main", "([Ljava/lang/String;)V");
        calls.each(main, first, true, (method, node) -> {
            Found<FieldNode> field = field(node, Opcodes.PUTSTATIC);
            if (field != null) {
                setLater.add(field.member());
            }
        });
    }

    /** The static field that an instruction of this opcode names; null for others. */
    private Found<FieldNode> field(AbstractInsnNode node, int opcode) {
        return node instanceof FieldInsnNode field && node.getOpcode() == opcode ? program.field(field.owner, field.name, field.desc) : null;
    }

    /** Notes which fields of other classes the initialiser may set, which it may read that are set later, whether it reads or writes, and may raise. */
    void note(LoadedClass of) {
        MethodNode initialiser = of.method("<clinit>", "()V");
        if (initialiser == null) {
            return;
        }
        Set<String> changed = new TreeSet<>();
        Set<String> read = new TreeSet<>();
        Set<String> raised = new TreeSet<>();
        calls.each(of, initialiser, true, (method, node) -> {
            visitField(of, node, changed, read);
            if (node instanceof MethodInsnNode call && call.owner.equals("jop/Io")) {
                changed.add(call.name.equals("read") ? "the input" : "the output");
            }
            if (Raising.isRaising(method, node)) {
                raised.add(Raising.place(method, node));
            }
        });
        note(of, "change ", changed);
        note(of, "read what is set later: ", read);
        note(of, "raise an exception, which ends the program: ", raised);
    }

    private void visitField(LoadedClass of, AbstractInsnNode node, Set<String> changed, Set<String> read) {
        Found<FieldNode> put = field(node, Opcodes.PUTSTATIC);
        Found<FieldNode> got = field(node, Opcodes.GETSTATIC);
        if (put != null && put.owner() != of && put.owner().origin == Origin.PROGRAM) {
            changed.add(put.owner().name() + "." + put.member().name);
        }
        if (got != null && got.owner() != of && setLater.contains(got.member())) {
            read.add(got.owner().name() + "." + got.member().name);
        }
    }

    private void note(LoadedClass of, String what, Set<String> found) {
        if (!found.isEmpty()) {
            program.report.note("the static initialiser of " + of.name() + " runs before main, not at the first use of the class, and may " + what
                    + String.join(", ", found));
        }
    }
}
