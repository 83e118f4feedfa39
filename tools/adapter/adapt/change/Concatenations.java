package adapt.change;

import adapt.classes.LoadedClass;
import adapt.classes.Program;
import adapt.classes.TextNeeded;
import java.util.ArrayDeque;
import java.util.Arrays;
import java.util.Deque;
import java.util.HashMap;
import java.util.Map;
import org.objectweb.asm.Opcodes;
import org.objectweb.asm.Type;
import org.objectweb.asm.tree.AbstractInsnNode;
import org.objectweb.asm.tree.InvokeDynamicInsnNode;
import org.objectweb.asm.tree.MethodNode;

/** String `+` by invokedynamic (Java 9 and later): a method of the class that appends the parts to a StringBuilder. */
public final class Concatenations implements Change {
    private static final String BUILDER = "java/lang/StringBuilder";
    private final Program program;
    private final Map<String, MethodNode> helpers = new HashMap<>();

    /** For the classes of a program. */
    public Concatenations(Program program) {
        this.program = program;
    }

    @Override
    public void apply(LoadedClass owner, MethodNode method) {
        for (AbstractInsnNode node : method.instructions.toArray()) {
            if (node instanceof InvokeDynamicInsnNode site && site.bsm.getOwner().equals("java/lang/invoke/StringConcatFactory")) {
                if (!program.isText) {
                    throw new TextNeeded();
                }
                replace(owner, method, site);
            }
        }
    }

    private void replace(LoadedClass owner, MethodNode method, InvokeDynamicInsnNode site) {
        LoadedClass to = Code.helperOwner(program, owner);
        String recipe = site.name.equals("makeConcat") ? "\1".repeat(Type.getArgumentTypes(site.desc).length) : (String) site.bsmArgs[0];
        Object[] constants = site.bsmArgs.length == 0 ? site.bsmArgs : Arrays.copyOfRange(site.bsmArgs, 1, site.bsmArgs.length);
        String key = to.name() + site.desc + recipe + Arrays.toString(constants);
        MethodNode helper = helpers.computeIfAbsent(key, each -> {
            MethodNode made = Code.addHelper(to, "concatenate", site.desc);
            write(made, recipe, new ArrayDeque<>(Arrays.asList(constants)));
            return made;
        });
        program.report.replace(Code.place(owner, method, site), "string +", to.name() + "." + helper.name);
        method.instructions.set(site, Code.invokeStatic(to.name(), helper.name, helper.desc));
    }

    private static void write(MethodNode to, String recipe, Deque<Object> constants) {
        Deque<Type> types = new ArrayDeque<>(Arrays.asList(Type.getArgumentTypes(to.desc)));
        to.visitTypeInsn(Opcodes.NEW, BUILDER);
        to.visitInsn(Opcodes.DUP);
        to.visitMethodInsn(Opcodes.INVOKESPECIAL, BUILDER, "<init>", "()V", false);
        StringBuilder text = new StringBuilder();
        int local = 0;
        for (char each : recipe.toCharArray()) {
            if (each == '\1') {
                appendText(to, text);
                Type type = types.remove();
                to.visitVarInsn(type.getOpcode(Opcodes.ILOAD), local);
                append(to, type);
                local += type.getSize();
            } else if (each == '\2') {
                text.append(constants.remove());
            } else {
                text.append(each);
            }
        }
        appendText(to, text);
        to.visitMethodInsn(Opcodes.INVOKEVIRTUAL, BUILDER, "toText", "()Ljop/Text;", false);
        to.visitInsn(Opcodes.ARETURN);
    }

    private static void appendText(MethodNode to, StringBuilder text) {
        if (text.length() > 0) {
            to.visitLdcInsn(text.toString());
            append(to, Type.getObjectType("jop/Text"));
            text.setLength(0);
        }
    }

    private static void append(MethodNode to, Type type) {
        String of = switch (type.getSort()) {
            case Type.BYTE, Type.SHORT, Type.INT -> "I";
            case Type.ARRAY, Type.OBJECT -> type.getInternalName().equals("jop/Text") ? "Ljop/Text;" : "Ljava/lang/Object;";
            default -> type.getDescriptor();
        };
        to.visitMethodInsn(Opcodes.INVOKEVIRTUAL, BUILDER, "append", "(" + of + ")Ljava/lang/StringBuilder;", false);
    }
}
