package adapt.change;

import adapt.classes.CoreClasses;
import adapt.classes.Found;
import adapt.classes.LoadedClass;
import adapt.classes.Origin;
import adapt.classes.Program;
import adapt.classes.TextTypes;
import java.util.HashMap;
import java.util.Map;
import java.util.Set;
import org.objectweb.asm.Label;
import org.objectweb.asm.Opcodes;
import org.objectweb.asm.Type;
import org.objectweb.asm.tree.AbstractInsnNode;
import org.objectweb.asm.tree.MethodInsnNode;
import org.objectweb.asm.tree.MethodNode;
import org.objectweb.asm.tree.analysis.BasicValue;
import org.objectweb.asm.tree.analysis.Frame;

/**
 * The text of an object whose class is known and has a `toString`, where it is appended, printed or asked for: a call of that method. So a bound has
 * no more calls than the classes below that one have, where that of any object may go on to lists and to what these hold.
 */
public final class KnownTexts implements Change {
    private static final Set<String> CALLS = Set.of("append(Ljava/lang/Object;)Ljava/lang/StringBuilder;", "insert(ILjava/lang/Object;)Ljava/lang/StringBuilder;",
            "append(Ljava/lang/Object;)Ljava/lang/StringBuffer;", "insert(ILjava/lang/Object;)Ljava/lang/StringBuffer;",
            "print(Ljava/lang/Object;)V", "println(Ljava/lang/Object;)V", "valueOf(Ljava/lang/Object;)Ljop/Text;");
    private static final Set<String> OWNERS = Set.of("java/lang/StringBuilder", "java/lang/StringBuffer", "java/io/PrintStream", TextTypes.TEXT);
    private static final String OBJECT = "Ljava/lang/Object;)";
    private static final String TEXT = "Ljop/Text;)";
    private final Program program;
    private final Map<String, MethodNode> helpers = new HashMap<>();

    /** For the classes of a program. */
    public KnownTexts(Program program) {
        this.program = program;
    }

    @Override
    public void apply(LoadedClass owner, MethodNode method) {
        if (!program.isText || owner.origin == Origin.LIBRARY) {
            return;
        }
        Frame<BasicValue>[] frames = null;
        AbstractInsnNode[] nodes = method.instructions.toArray();
        for (int k = 0; k < nodes.length; k++) {
            if (nodes[k] instanceof MethodInsnNode call && OWNERS.contains(call.owner) && CALLS.contains(call.name + call.desc)) {
                frames = frames == null ? TypesOnStack.of(program, owner, method) : frames;
                if (frames[k] != null) {
                    replace(owner, method, call, frames[k].getStack(frames[k].getStackSize() - 1).getType());
                }
            }
        }
    }

    private void replace(LoadedClass owner, MethodNode method, MethodInsnNode call, Type type) {
        if (TypesOnStack.isNull(type) && !call.name.equals("valueOf")) {
            call.desc = call.desc.replace(OBJECT, TEXT);
            return;
        }
        LoadedClass of = type == null || type.getSort() != Type.OBJECT ? null : program.find(type.getInternalName());
        if (of == null || of.isInterface() || of.name().equals(CoreClasses.OBJECT)) {
            return;
        }
        MachineMessages.note(program, owner, method, call, of);
        Found<MethodNode> found = program.method(of.name(), "toText", "()Ljop/Text;");
        boolean isNamed = of.has(Opcodes.ACC_PUBLIC) || of.packageName().equals(owner.packageName());
        if (found == null || found.owner().isInterface() || !isNamed) {
            return;
        }
        LoadedClass to = Code.helperOwner(program, owner);
        MethodNode helper = helpers.computeIfAbsent(to.name() + " " + of.name(), key -> helper(to, of.name()));
        method.instructions.insertBefore(call, Code.invokeStatic(to.name(), helper.name, helper.desc));
        if (call.name.equals("valueOf")) {
            method.instructions.remove(call);
        } else {
            call.desc = call.desc.replace(OBJECT, TEXT);
        }
    }

    /** A method that gives the text of an object, `null` for null. */
    private static MethodNode helper(LoadedClass to, String of) {
        MethodNode helper = Code.addHelper(to, "textOf", "(L" + of + ";)Ljop/Text;");
        Label none = new Label();
        helper.visitVarInsn(Opcodes.ALOAD, 0);
        helper.visitJumpInsn(Opcodes.IFNULL, none);
        helper.visitVarInsn(Opcodes.ALOAD, 0);
        helper.visitMethodInsn(Opcodes.INVOKEVIRTUAL, of, "toText", "()Ljop/Text;", false);
        helper.visitInsn(Opcodes.ARETURN);
        helper.visitLabel(none);
        helper.visitLdcInsn("null");
        helper.visitInsn(Opcodes.ARETURN);
        return helper;
    }
}
