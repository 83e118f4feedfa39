package adapt.write;

import org.objectweb.asm.commons.CodeSizeEvaluator;
import org.objectweb.asm.tree.AbstractInsnNode;
import org.objectweb.asm.tree.MethodNode;

/** How many bytes of code a method or an instruction takes at most. */
final class CodeSize {
    private CodeSize() {
    }

    static int of(MethodNode method) {
        CodeSizeEvaluator size = new CodeSizeEvaluator(null);
        method.instructions.accept(size);
        return size.getMaxSize();
    }

    static int of(AbstractInsnNode node) {
        CodeSizeEvaluator size = new CodeSizeEvaluator(null);
        node.accept(size);
        return size.getMaxSize();
    }
}
