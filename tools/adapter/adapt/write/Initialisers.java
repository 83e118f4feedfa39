package adapt.write;

import adapt.classes.LoadedClass;
import adapt.classes.Origin;
import adapt.classes.Program;
import adapt.reach.Reach;
import java.util.List;
import org.objectweb.asm.tree.MethodNode;

/** Cuts static initialisers that the method cache can't hold into methods; tells other methods that it can't. */
final class Initialisers {
    private final Program program;
    private final Reach reach;

    Initialisers(Program program, Reach reach) {
        this.program = program;
        this.reach = reach;
    }

    void cut() {
        int limit = program.options.methodBytes();
        for (LoadedClass each : List.copyOf(reach.named())) {
            for (MethodNode method : each.origin == Origin.CORE ? List.<MethodNode>of() : List.copyOf(each.node.methods)) {
                if (!reach.isRun(method) || CodeSize.of(method) <= limit) {
                    continue;
                }
                if (method.name.equals("<clinit>") && !each.isInterface()) {
                    int count = new InitialiserCutter(each, method, limit, made -> reach.addMade(each, made)).cut();
                    program.report.cut("static initialiser of " + each.name() + " into " + (count + 1) + " methods");
                }
                if (CodeSize.of(method) > limit) {
                    program.report.note(each.name() + "." + method.name + " has up to " + CodeSize.of(method) + " bytes of code, more than "
                            + limit + ": give `run` a larger method cache");
                }
            }
        }
    }
}
