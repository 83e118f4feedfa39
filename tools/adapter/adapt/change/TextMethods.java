package adapt.change;

import adapt.classes.LoadedClass;
import adapt.classes.TextTypes;
import org.objectweb.asm.Opcodes;
import org.objectweb.asm.tree.AbstractInsnNode;
import org.objectweb.asm.tree.MethodInsnNode;
import org.objectweb.asm.tree.MethodNode;

/** Calls of `jop/Strings` with a text in place of a String, as code of the library has them: those methods of the text. */
final class TextMethods implements Change {
    private static final String TEXT = "(L" + TextTypes.TEXT + ";";

    @Override
    public void apply(LoadedClass owner, MethodNode method) {
        for (AbstractInsnNode node : method.instructions.toArray()) {
            if (node instanceof MethodInsnNode call && call.owner.equals("jop/Strings") && call.desc.startsWith(TEXT) && !TextTypes.isKept(owner.name())) {
                method.instructions.set(node, new MethodInsnNode(Opcodes.INVOKEVIRTUAL, TextTypes.TEXT, call.name, "(" + call.desc.substring(TEXT.length())));
            }
        }
    }
}
