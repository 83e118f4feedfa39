package adapt.change;

import adapt.classes.CoreClasses;
import adapt.classes.Found;
import adapt.classes.LoadedClass;
import adapt.classes.Program;
import adapt.classes.TextTypes;
import adapt.reach.Reach;
import java.util.LinkedHashMap;
import java.util.Map;
import org.objectweb.asm.Opcodes;
import org.objectweb.asm.tree.AbstractInsnNode;
import org.objectweb.asm.tree.ClassNode;
import org.objectweb.asm.tree.FieldInsnNode;
import org.objectweb.asm.tree.FieldNode;
import org.objectweb.asm.tree.InsnList;
import org.objectweb.asm.tree.InsnNode;
import org.objectweb.asm.tree.LdcInsnNode;
import org.objectweb.asm.tree.MethodNode;

/** String literals, where strings are objects of `jop/Text`: static fields, each made once at the start. */
public final class Literals implements Change {
    /** The class that has them. */
    static final String NAME = "jop/made/Literals";
    private static final String TEXT = "Ljop/Text;";
    private static final int ACCESS = Opcodes.ACC_PUBLIC | Opcodes.ACC_STATIC;
    private final Program program;
    private final Reach reach;
    private final Map<String, FieldNode> fields = new LinkedHashMap<>();
    private LoadedClass made;

    /** For the classes of a program. */
    public Literals(Program program, Reach reach) {
        this.program = program;
        this.reach = reach;
    }

    @Override
    public void apply(LoadedClass owner, MethodNode method) {
        for (AbstractInsnNode node : method.instructions.toArray()) {
            constantOf(node, method);
        }
        if (!program.isText || TextTypes.isKept(owner.name()) || owner.name().equals(NAME)) {
            return;
        }
        for (AbstractInsnNode node : method.instructions.toArray()) {
            if (node instanceof LdcInsnNode ldc && ldc.cst instanceof String text) {
                method.instructions.set(node, new FieldInsnNode(Opcodes.GETSTATIC, NAME, field(text).name, TEXT));
            } else if (isSame(node)) {
                method.instructions.remove(node);
            }
        }
    }

    /** Whether a call of the library turns a string into a text, or a text into a string: here they are the same. */
    private static boolean isSame(AbstractInsnNode node) {
        return Code.isCall(node, "jop/Text", "of", "(Ljop/Text;)Ljop/Text;") || Code.isCall(node, "jop/Text", "literal", "()Ljop/Text;");
    }

    /** A static field that begins as a string has that value for good. */
    private void constantOf(AbstractInsnNode node, MethodNode method) {
        if (node instanceof FieldInsnNode get && get.getOpcode() == Opcodes.GETSTATIC) {
            Found<FieldNode> found = program.field(get.owner, get.name, get.desc);
            if (found != null && found.member().value instanceof String text && (found.member().access & Opcodes.ACC_FINAL) != 0) {
                method.instructions.set(node, new LdcInsnNode(text));
            }
        }
    }

    private FieldNode field(String text) {
        if (made == null) {
            make();
        }
        return fields.computeIfAbsent(text, key -> {
            FieldNode field = new FieldNode(ACCESS | Opcodes.ACC_FINAL, "text" + fields.size(), TEXT, null, null);
            made.add(field);
            return field;
        });
    }

    private void make() {
        ClassNode node = new ClassNode();
        node.version = Opcodes.V1_8;
        node.name = NAME;
        node.superName = CoreClasses.OBJECT;
        node.access = Opcodes.ACC_PUBLIC | Opcodes.ACC_SUPER | Opcodes.ACC_FINAL | Opcodes.ACC_SYNTHETIC;
        MethodNode initialiser = new MethodNode(Opcodes.ACC_STATIC, "<clinit>", "()V", null, null);
        initialiser.instructions.add(new LdcInsnNode(""));
        initialiser.instructions.add(Code.invokeStatic("jop/Text", "of", "(Ljava/lang/String;)Ljop/Text;"));
        initialiser.instructions.add(new InsnNode(Opcodes.POP));
        initialiser.instructions.add(new InsnNode(Opcodes.RETURN));
        node.methods.add(initialiser);
        made = program.make(node);
        reach.atEnd(() -> fill(initialiser.instructions));
    }

    private void fill(InsnList to) {
        to.clear();
        fields.forEach((text, field) -> {
            to.add(new LdcInsnNode(text));
            to.add(Code.invokeStatic("jop/Text", "of", "(Ljava/lang/String;)Ljop/Text;"));
            to.add(new FieldInsnNode(Opcodes.PUTSTATIC, NAME, field.name, TEXT));
        });
        to.add(new InsnNode(Opcodes.RETURN));
    }
}
