package adapt.write;

import adapt.classes.LoadedClass;
import adapt.classes.LoopBound;
import adapt.classes.Program;
import adapt.reach.Reach;
import java.util.List;
import java.util.Map;
import org.objectweb.asm.tree.MethodNode;

/** The bounds of loops that the library has, and those of loops that were made, at their places in the new class files; promises as comments before them. */
final class LoopBounds {
    private final Program program;
    private final Reach reach;
    private int promises;

    LoopBounds(Program program, Reach reach) {
        this.program = program;
        this.reach = reach;
    }

    /** The lines for the methods of a class. */
    String lines(LoadedClass of, byte[] bytes) {
        StringBuilder lines = new StringBuilder();
        Map<String, List<Integer>> loops = LoopHeaders.read(bytes);
        for (MethodNode method : of.node.methods) {
            List<Integer> places = loops.getOrDefault(method.name + method.desc, List.of());
            List<LoopBound> counts = counts(of, method, places.size());
            for (int k = 0; k < places.size() && k < counts.size(); k++) {
                if (counts.get(k).promise() != null) {
                    lines.append("# promise: ").append(counts.get(k).promise()).append('\n');
                    promises++;
                }
                lines.append(of.name()).append('.').append(method.name).append(method.desc).append(' ').append(places.get(k)).append(" loop<=")
                        .append(counts.get(k).count()).append('\n');
            }
        }
        return lines.toString();
    }

    /** How many of the lines are promises. */
    int promises() {
        return promises;
    }

    private List<LoopBound> counts(LoadedClass of, MethodNode method, int loops) {
        List<LoopBound> made = reach.bounds().get(method);
        if (made != null) {
            return made;
        }
        List<LoopBound> counts = program.libraryBounds.of(of.name(), method.name + method.desc);
        return counts.size() == loops ? counts : List.of();
    }
}
