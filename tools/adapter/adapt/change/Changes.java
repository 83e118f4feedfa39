package adapt.change;

import adapt.classes.LoadedClass;
import adapt.classes.Origin;
import adapt.classes.Program;
import adapt.reach.Reach;
import java.util.List;
import org.objectweb.asm.tree.MethodNode;

/** All replacements, in the order in which they are made. */
public final class Changes {
    private final List<Change> changes;

    /** Those of a program. */
    public Changes(Program program, Reach reach) {
        PrivateCalls privateCalls = new PrivateCalls(program);
        changes = List.of(new Assertions(program), new MachineMessages(program), new KnownTexts(program), new Enumerations(program, reach), new Concatenations(program),
                new Lambdas(program, privateCalls), new LongArithmetic(program), new ArrayForms(program, reach), new SuperClones(program, reach), new InterfaceCalls(program),
                new Locales(program), new ObjectMethods(program), new Descriptions(program), new ClassObjects(program, reach), new Literals(program, reach),
                new Exceptions(program), new TextMethods(), privateCalls);
    }

    /** Makes them in a method of a class. */
    public void apply(LoadedClass owner, MethodNode method) {
        if (owner.origin != Origin.CORE) {
            changes.forEach(change -> change.apply(owner, method));
        }
    }
}
