package adapt.order;

import adapt.classes.Found;
import adapt.classes.LoadedClass;
import adapt.classes.Program;
import adapt.reach.Reach;
import java.util.ArrayDeque;
import java.util.Deque;
import java.util.HashMap;
import java.util.HashSet;
import java.util.List;
import java.util.Map;
import java.util.Set;
import java.util.function.BiConsumer;
import org.objectweb.asm.Opcodes;
import org.objectweb.asm.tree.AbstractInsnNode;
import org.objectweb.asm.tree.MethodInsnNode;
import org.objectweb.asm.tree.MethodNode;

/** Which methods others may run: by name, or by any object of which the program makes one. */
final class Calls {
    private final Program program;
    private final Reach reach;
    private final Map<String, List<Found<MethodNode>>> selected = new HashMap<>();

    Calls(Program program, Reach reach) {
        this.program = program;
        this.reach = reach;
    }

    /** Shows each instruction of a method, and of those that it may run, with the class that has it; calls on objects are followed if asked. */
    void each(LoadedClass owner, MethodNode from, boolean isSelecting, BiConsumer<Found<MethodNode>, AbstractInsnNode> seeing) {
        Set<MethodNode> seen = new HashSet<>();
        Deque<Found<MethodNode>> waiting = new ArrayDeque<>();
        waiting.push(new Found<>(owner, from));
        while (!waiting.isEmpty()) {
            Found<MethodNode> method = waiting.pop();
            if (seen.add(method.member())) {
                for (AbstractInsnNode node : method.member().instructions) {
                    seeing.accept(method, node);
                    if (node instanceof MethodInsnNode call) {
                        targets(call, isSelecting).forEach(waiting::push);
                    }
                }
            }
        }
    }

    private List<Found<MethodNode>> targets(MethodInsnNode call, boolean isSelecting) {
        if (call.getOpcode() == Opcodes.INVOKESTATIC || call.getOpcode() == Opcodes.INVOKESPECIAL) {
            Found<MethodNode> named = program.method(call.owner, call.name, call.desc);
            return named == null ? List.of() : List.of(named);
        }
        return !isSelecting ? List.of() : selected.computeIfAbsent(call.owner + "." + call.name + call.desc, key -> reach.instantiated().stream()
                .filter(each -> program.isBelow(each, call.owner)).map(each -> program.selected(each, call.name, call.desc))
                .filter(each -> each != null).toList());
    }
}
