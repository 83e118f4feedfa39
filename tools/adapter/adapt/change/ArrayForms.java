package adapt.change;

import adapt.classes.LoadedClass;
import adapt.classes.LoopBound;
import adapt.classes.Program;
import adapt.reach.Reach;
import java.util.ArrayList;
import java.util.LinkedHashMap;
import java.util.List;
import java.util.Map;
import org.objectweb.asm.Opcodes;
import org.objectweb.asm.Type;
import org.objectweb.asm.tree.AbstractInsnNode;
import org.objectweb.asm.tree.MethodInsnNode;
import org.objectweb.asm.tree.MethodNode;
import org.objectweb.asm.tree.MultiANewArrayInsnNode;

/** Arrays of several dimensions, and copies of arrays: static methods of the class itself, or of `jop/Arrays`. */
public final class ArrayForms implements Change {
    private static final String ARRAYS = "jop/Arrays";
    private static final String OBJECTS = "[Ljava/lang/Object;";
    private final Program program;
    private final Reach reach;
    private final Map<String, MethodNode> helpers = new LinkedHashMap<>();

    /** For the classes of a program; which arrays it makes is known at the end of the reach. */
    public ArrayForms(Program program, Reach reach) {
        this.program = program;
        this.reach = reach;
    }

    @Override
    public void apply(LoadedClass owner, MethodNode method) {
        if (owner.name().equals(ARRAYS) && method.name.equals("ofKind")) {
            reach.atEnd(() -> ArrayCode.ofKind(method, reach.arraysBelow(OBJECTS)));
        }
        for (AbstractInsnNode node : method.instructions.toArray()) {
            if (node instanceof MultiANewArrayInsnNode made) {
                make(owner, method, made);
            } else if (node instanceof MethodInsnNode call && call.owner.startsWith("[") && call.name.equals("clone")) {
                copy(owner, method, call);
            }
        }
    }

    private void make(LoadedClass owner, MethodNode method, MultiANewArrayInsnNode node) {
        LoadedClass to = Code.helperOwner(program, owner);
        String key = to.name() + " make " + node.desc + node.dims;
        MethodNode helper = helpers.get(key);
        if (helper == null) {
            helper = Code.addHelper(to, "newArray", "(" + "I".repeat(node.dims) + ")" + node.desc);
            ArrayCode.make(helper, to.name(), node.desc, node.dims);
            helpers.put(key, helper);
            reach.addArray(node.desc, node.dims);
        }
        reach.bound(helper, counts(owner, method, node));
        program.report.replace(Code.place(owner, method, node), "new array of " + node.dims + " dimensions", to.name() + "." + helper.name);
        method.instructions.set(node, Code.invokeStatic(to.name(), helper.name, helper.desc));
    }

    private void copy(LoadedClass owner, MethodNode method, MethodInsnNode call) {
        if (Type.getType(call.owner).getDimensions() == 1 && call.owner.length() == 2) {
            program.report.replace(Code.place(owner, method, call), "clone() of an array", ARRAYS + ".clone");
            method.instructions.set(call, Code.invokeStatic(ARRAYS, "clone", "(" + call.owner + ")" + call.owner));
            return;
        }
        LoadedClass to = Code.helperOwner(program, owner);
        String key = to.name() + " copy " + call.owner;
        MethodNode helper = helpers.get(key);
        if (helper == null) {
            helper = Code.addHelper(to, "copyArray", "(" + call.owner + ")" + call.owner);
            ArrayCode.copy(helper, call.owner, List.of());
            MethodNode made = helper;
            reach.atEnd(() -> ArrayCode.copy(made, call.owner, reach.arraysBelow(call.owner)));
            reach.addArray(call.owner, 1);
            helpers.put(key, helper);
        }
        reach.bound(helper, List.of(length(owner, method, call)));
        program.report.replace(Code.place(owner, method, call), "clone() of an array", to.name() + "." + helper.name);
        method.instructions.set(call, Code.invokeStatic(to.name(), helper.name, helper.desc));
    }

    /** Of an array that is copied how long it is at most: in `values` of an enum that of all constants. */
    private LoopBound length(LoadedClass owner, MethodNode method, MethodInsnNode call) {
        boolean isOfEnum = "java/lang/Enum".equals(owner.node.superName) && call.owner.equals("[L" + owner.name() + ";");
        return isOfEnum && method.name.equals("values") && method.desc.equals("()" + call.owner) ? LoopBound.always(Enumerations.constants(owner)) : promised();
    }

    private LoopBound promised() {
        return LoopBound.ofElements(program.options.elements(), program.options.elements());
    }

    /** Of each dimension but the last one how many elements it has at most: where it is a constant that one. */
    private List<LoopBound> counts(LoadedClass owner, MethodNode method, MultiANewArrayInsnNode node) {
        List<LoopBound> counts = new ArrayList<>();
        for (Integer count : Constants.pushed(owner, method, node, node.dims).subList(0, node.dims - 1)) {
            counts.add(count == null ? promised() : LoopBound.always(Math.max(0, count)));
        }
        return counts;
    }
}
