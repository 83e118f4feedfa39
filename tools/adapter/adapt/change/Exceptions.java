package adapt.change;

import adapt.classes.CoreClasses;
import adapt.classes.LoadedClass;
import adapt.classes.Origin;
import adapt.classes.Program;
import adapt.classes.Messages;
import adapt.classes.Strings;
import adapt.classes.TextNeeded;
import org.objectweb.asm.Opcodes;
import org.objectweb.asm.tree.AbstractInsnNode;
import org.objectweb.asm.tree.FieldInsnNode;
import org.objectweb.asm.tree.InsnList;
import org.objectweb.asm.tree.InsnNode;
import org.objectweb.asm.tree.MethodInsnNode;
import org.objectweb.asm.tree.MethodNode;
import org.objectweb.asm.tree.TypeInsnNode;

/** Exceptions without causes and stack traces; the message of one of the linker is the literal of which its text was made. */
public final class Exceptions implements Change {
    private static final String CAUSE = "Ljava/lang/Throwable;";
    private final Program program;
    private final String string;

    /** For the classes of a program. */
    public Exceptions(Program program) {
        this.program = program;
        this.string = program.isText ? "Ljop/Text;" : "Ljava/lang/String;";
    }

    @Override
    public void apply(LoadedClass owner, MethodNode method) {
        for (AbstractInsnNode node : method.instructions.toArray()) {
            if (node instanceof MethodInsnNode call && isThrowable(call.owner)) {
                if (program.method(call.owner, call.name, call.desc) == null) {
                    leaveOut(owner, method, call);
                }
                if (program.isText) {
                    changeMessage(owner, method, call);
                }
            }
        }
    }

    private boolean isThrowable(String name) {
        LoadedClass found = program.find(name);
        return found != null && program.isBelow(found, CoreClasses.THROWABLE);
    }

    private void leaveOut(LoadedClass owner, MethodNode method, MethodInsnNode call) {
        InsnList before = new InsnList();
        if (call.name.equals("<init>")) {
            String descriptor = constructor(call.desc, before);
            if (descriptor == null || !isThere(call.owner, descriptor)) {
                return;
            }
            call.desc = descriptor;
            method.instructions.insertBefore(call, before);
        } else if (!leaveCallOut(before, call)) {
            return;
        } else {
            method.instructions.insert(call, before);
            method.instructions.remove(call);
        }
        program.report.replace(Code.place(owner, method, call), "cause, trace or index of an exception", "nothing");
    }

    /** Whether there is a constructor; those of the linker take strings. */
    private boolean isThere(String owner, String descriptor) {
        return program.method(owner, "<init>", descriptor) != null
                || program.method(owner, "<init>", descriptor.replace("Ljop/Text;", "Ljava/lang/String;")) != null;
    }

    /** The constructor without a cause, and what takes the cause off the stack; null where there is none. */
    private String constructor(String descriptor, InsnList before) {
        if (descriptor.equals("(" + CAUSE + ")V")) {
            if (program.strings == Strings.MESSAGES) {
                program.report.note("the message of an exception that is made of a cause alone is null");
            }
            before.add(new InsnNode(Opcodes.POP));
            return "()V";
        }
        if (descriptor.equals("(I)V")) {
            before.add(new InsnNode(Opcodes.POP));
            return "()V";
        }
        if (descriptor.equals("(" + string + CAUSE + "ZZ)V")) {
            before.add(new InsnNode(Opcodes.POP2));
            before.add(new InsnNode(Opcodes.POP));
            return "(" + string + ")V";
        }
        if (descriptor.equals("(" + string + CAUSE + ")V")) {
            before.add(new InsnNode(Opcodes.POP));
            return "(" + string + ")V";
        }
        return null;
    }

    /** What stands in place of calls that only tell how an exception came about. */
    private static boolean leaveCallOut(InsnList by, MethodInsnNode call) {
        switch (call.name + call.desc) {
            case "addSuppressed(Ljava/lang/Throwable;)V", "setStackTrace([Ljava/lang/StackTraceElement;)V" -> by.add(new InsnNode(Opcodes.POP2));
            case "printStackTrace()V", "initCause(Ljava/lang/Throwable;)Ljava/lang/Throwable;" -> by.add(new InsnNode(Opcodes.POP));
            case "fillInStackTrace()Ljava/lang/Throwable;" -> by.add(new InsnNode(Opcodes.NOP));
            default -> {
                return false;
            }
        }
        return true;
    }

    /** The message of an exception that the linker brings, which is a text here. */
    private void changeMessage(LoadedClass owner, MethodNode method, MethodInsnNode call) {
        if (call.name.equals("getMessage") && call.desc.equals(Messages.GET)) {
            if (program.strings == Strings.TEXTS) {
                throw new TextNeeded(Strings.MESSAGES);
            }
            if (call.getOpcode() == Opcodes.INVOKESPECIAL) {
                call.owner = owner.node.superName;
            } else if (program.method(call.owner, call.name, call.desc) == null) {
                method.instructions.set(call, program.messages.read());
            }
        } else if (call.name.equals("<init>") && program.find(call.owner).origin == Origin.CORE) {
            construct(owner, method, call);
        }
    }

    /** A constructor of the linker's takes a String; where messages are read, a class below it keeps the text. */
    private void construct(LoadedClass owner, MethodNode method, MethodInsnNode call) {
        boolean isRead = program.strings == Strings.MESSAGES;
        TypeInsnNode made = madeFor(method, call);
        if (made == null && isRead && program.messages.isTelling(owner.node.superName)) {
            call.owner = owner.node.superName;
        } else if (call.desc.equals("(Ljop/Text;)V") && made != null && isRead && !isLiteral(call.getPrevious())) {
            call.owner = program.messages.telling(call.owner);
            made.desc = call.owner;
        } else if (call.desc.equals("(Ljop/Text;)V")) {
            method.instructions.insertBefore(call, program.messages.literal());
            call.desc = "(Ljava/lang/String;)V";
        }
    }

    /** Whether an instruction pushes a literal. */
    private static boolean isLiteral(AbstractInsnNode before) {
        AbstractInsnNode node = before;
        while (node != null && node.getOpcode() < 0) {
            node = node.getPrevious();
        }
        return node instanceof FieldInsnNode field && field.getOpcode() == Opcodes.GETSTATIC && field.owner.equals(Literals.NAME);
    }

    /** The `new` whose object a constructor is called on; null where that is `this`. */
    private static TypeInsnNode madeFor(MethodNode method, MethodInsnNode call) {
        int depth = 0;
        for (AbstractInsnNode node = call.getPrevious(); node != null; node = node.getPrevious()) {
            if (node instanceof MethodInsnNode other && other.name.equals("<init>") && other.owner.equals(call.owner)) {
                depth++;
            } else if (node instanceof TypeInsnNode made && made.getOpcode() == Opcodes.NEW && made.desc.equals(call.owner)) {
                if (depth == 0) {
                    return made;
                }
                depth--;
            }
        }
        return null;
    }
}
