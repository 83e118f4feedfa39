package adapt.change;

import adapt.classes.CoreClasses;
import adapt.classes.LoadedClass;
import adapt.classes.Program;
import org.objectweb.asm.Opcodes;
import org.objectweb.asm.Type;
import org.objectweb.asm.tree.AbstractInsnNode;
import org.objectweb.asm.tree.MethodNode;
import org.objectweb.asm.tree.analysis.Analyzer;
import org.objectweb.asm.tree.analysis.AnalyzerException;
import org.objectweb.asm.tree.analysis.BasicInterpreter;
import org.objectweb.asm.tree.analysis.BasicValue;
import org.objectweb.asm.tree.analysis.Frame;

/** Of which classes the objects are that a method has on its stack, as far as its instructions tell. */
final class TypesOnStack extends BasicInterpreter {
    private static final Type OBJECT = Type.getObjectType(CoreClasses.OBJECT);
    private final Program program;

    private TypesOnStack(Program program) {
        super(Opcodes.ASM9);
        this.program = program;
    }

    /** What each instruction finds; null for one that is never run, or all null where the method isn't understood. */
    static Frame<BasicValue>[] of(Program program, LoadedClass owner, MethodNode method) {
        Analyzer<BasicValue> analyzer = new Analyzer<>(new TypesOnStack(program));
        try {
            return method.maxLocals == 0 && method.maxStack == 0 ? analyzer.analyzeAndComputeMaxs(owner.name(), method) : analyzer.analyze(owner.name(), method);
        } catch (AnalyzerException fault) {
            return analyzer.getFrames();
        }
    }

    /** Whether a type is that of null alone. */
    static boolean isNull(Type type) {
        return NULL_TYPE.equals(type);
    }

    @Override
    public BasicValue newValue(Type type) {
        boolean isReference = type != null && (type.getSort() == Type.OBJECT || type.getSort() == Type.ARRAY);
        return isReference ? new BasicValue(type) : super.newValue(type);
    }

    @Override
    public BasicValue binaryOperation(AbstractInsnNode node, BasicValue first, BasicValue second) throws AnalyzerException {
        if (node.getOpcode() != Opcodes.AALOAD) {
            return super.binaryOperation(node, first, second);
        }
        Type array = first.getType();
        return newValue(array.getSort() == Type.ARRAY ? Type.getType(array.getDescriptor().substring(1)) : array.equals(NULL_TYPE) ? array : OBJECT);
    }

    @Override
    public BasicValue merge(BasicValue first, BasicValue second) {
        if (first.equals(second) || !first.isReference() || !second.isReference()) {
            return super.merge(first, second);
        }
        if (first.getType().equals(NULL_TYPE) || second.getType().equals(NULL_TYPE)) {
            return first.getType().equals(NULL_TYPE) ? second : first;
        }
        boolean isArray = first.getType().getSort() == Type.ARRAY || second.getType().getSort() == Type.ARRAY;
        return newValue(isArray ? OBJECT : Type.getObjectType(program.common(first.getType().getInternalName(), second.getType().getInternalName())));
    }
}
