package adapt.change;

import adapt.classes.LoadedClass;
import java.util.ArrayList;
import java.util.Collections;
import java.util.List;
import org.objectweb.asm.Opcodes;
import org.objectweb.asm.tree.AbstractInsnNode;
import org.objectweb.asm.tree.IntInsnNode;
import org.objectweb.asm.tree.LdcInsnNode;
import org.objectweb.asm.tree.MethodNode;
import org.objectweb.asm.tree.analysis.Analyzer;
import org.objectweb.asm.tree.analysis.AnalyzerException;
import org.objectweb.asm.tree.analysis.Frame;
import org.objectweb.asm.tree.analysis.SourceInterpreter;
import org.objectweb.asm.tree.analysis.SourceValue;

/** Which ints an instruction finds on the stack, where one instruction alone pushes them. */
final class Constants {
    private Constants() {
    }

    /** Of the uppermost values the constants, the lowest first; null for another value. */
    static List<Integer> pushed(LoadedClass owner, MethodNode method, AbstractInsnNode at, int count) {
        List<Integer> found = new ArrayList<>(Collections.nCopies(count, null));
        Frame<SourceValue> frame = frame(owner, method, at);
        for (int k = 0; frame != null && k < count; k++) {
            SourceValue value = frame.getStack(frame.getStackSize() - count + k);
            found.set(k, value.insns.size() == 1 ? valueOf(value.insns.iterator().next()) : null);
        }
        return found;
    }

    /** What is on the stack before an instruction; null where it is never run, or the method isn't understood. */
    private static Frame<SourceValue> frame(LoadedClass owner, MethodNode method, AbstractInsnNode at) {
        try {
            return new Analyzer<>(new SourceInterpreter()).analyze(owner.name(), method)[method.instructions.indexOf(at)];
        } catch (AnalyzerException fault) {
            return null;
        }
    }

    private static Integer valueOf(AbstractInsnNode node) {
        int opcode = node.getOpcode();
        if (opcode >= Opcodes.ICONST_M1 && opcode <= Opcodes.ICONST_5) {
            return opcode - Opcodes.ICONST_0;
        }
        if (node instanceof IntInsnNode push && opcode != Opcodes.NEWARRAY) {
            return push.operand;
        }
        return node instanceof LdcInsnNode ldc && ldc.cst instanceof Integer value ? value : null;
    }
}
