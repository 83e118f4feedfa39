package adapt.order;

import adapt.classes.LoadedClass;
import adapt.classes.Origin;
import adapt.classes.Program;
import adapt.reach.Reach;
import java.util.ArrayDeque;
import java.util.ArrayList;
import java.util.Comparator;
import java.util.Deque;
import java.util.LinkedHashSet;
import java.util.List;
import java.util.Set;

/** In which order classes are initialised at the start, so that each finds what its initialiser reads. */
public final class Order {
    private final Program program;
    private final Reach reach;
    private final Calls calls;
    private final Uses uses;
    private final Set<LoadedClass> done = new LinkedHashSet<>();
    private final Deque<LoadedClass> open = new ArrayDeque<>();

    /** Of the classes that a reach keeps. */
    public Order(Program program, Reach reach) {
        this.program = program;
        this.reach = reach;
        this.calls = new Calls(program, reach);
        this.uses = new Uses(program, reach, calls);
    }

    /** All classes that are kept and that the linker doesn't bring, in their order; a cycle is noted. */
    public List<LoadedClass> classes(LoadedClass main) {
        List<LoadedClass> all = new ArrayList<>(reach.named().stream().filter(each -> each.origin != Origin.CORE)
                .sorted(Comparator.comparing(LoadedClass::name)).toList());
        all.remove(main);
        all.add(0, main);
        all.forEach(this::visit);
        SideEffects effects = new SideEffects(program, calls, main);
        done.stream().filter(each -> each.origin == Origin.PROGRAM && reach.isInitialised(each)).forEach(effects::note);
        return new ArrayList<>(done);
    }

    private void visit(LoadedClass of) {
        if (of.origin == Origin.CORE || done.contains(of) || !reach.named().contains(of)) {
            return;
        }
        if (open.contains(of)) {
            noteCycle(of);
            return;
        }
        open.push(of);
        for (LoadedClass each : program.above(of)) {
            if (each != of) {
                visit(each);
            }
        }
        uses.of(of).forEach(this::visit);
        open.pop();
        done.add(of);
    }

    private void noteCycle(LoadedClass of) {
        List<String> names = new ArrayList<>();
        for (LoadedClass each : open) {
            names.add(0, each.name());
            if (each == of) {
                break;
            }
        }
        if (names.size() > 1) {
            program.report.note("static initialisers may read one another's fields, and the last one runs first: " + String.join(", ", names));
        }
    }
}
