package adapt.reach;

import adapt.change.Changes;
import adapt.classes.Found;
import adapt.classes.LoadedClass;
import adapt.classes.LoopBound;
import adapt.classes.Origin;
import adapt.classes.Program;
import adapt.report.Place;
import java.util.ArrayDeque;
import java.util.ArrayList;
import java.util.Deque;
import java.util.HashMap;
import java.util.LinkedHashMap;
import java.util.LinkedHashSet;
import java.util.List;
import java.util.Map;
import java.util.Set;
import org.objectweb.asm.Opcodes;
import org.objectweb.asm.Type;
import org.objectweb.asm.tree.AbstractInsnNode;
import org.objectweb.asm.tree.FieldNode;
import org.objectweb.asm.tree.MethodNode;

/** Which classes, methods and fields a program may use from its main method on, found by names and by what stands above what. */
public final class Reach {
    private final Program program;
    private final Changes changes;
    private final References references;
    private final Deque<MethodNode> waiting = new ArrayDeque<>();
    private final Map<MethodNode, LoadedClass> methods = new LinkedHashMap<>();
    private final Set<MethodNode> declared = new LinkedHashSet<>();
    private final Set<FieldNode> fields = new LinkedHashSet<>();
    private final Set<LoadedClass> named = new LinkedHashSet<>();
    private final Set<LoadedClass> instantiated = new LinkedHashSet<>();
    private final Set<LoadedClass> initialised = new LinkedHashSet<>();
    private final Map<String, Set<String>> calls = new HashMap<>();
    private final Set<String> arrays = new LinkedHashSet<>();
    private final List<Runnable> atEnd = new ArrayList<>();
    private final Map<MethodNode, Place> from = new HashMap<>();
    private Place place;
    private final Map<MethodNode, List<LoopBound>> bounds = new LinkedHashMap<>();

    /** A reach over the classes of a program, of which nothing is reached yet. */
    public Reach(Program program) {
        this.program = program;
        this.changes = new Changes(program, this);
        this.references = new References(program, this);
    }

    /** Reaches a method and all that it may use. */
    public void from(LoadedClass owner, MethodNode method) {
        initialise(owner);
        method(owner, method);
        while (!waiting.isEmpty()) {
            MethodNode next = waiting.remove();
            changes.apply(methods.get(next), next);
            references.visit(methods.get(next), next);
        }
        atEnd.forEach(Runnable::run);
    }

    /** Looks at one method alone, without those that it calls. */
    public void only(LoadedClass owner, MethodNode method) {
        methods.put(method, owner);
        changes.apply(owner, method);
        references.visit(owner, method);
    }

    /** Runs when all is reached. */
    public void atEnd(Runnable last) {
        atEnd.add(last);
    }

    /** A method of a class is run. */
    void method(LoadedClass owner, MethodNode method) {
        name(owner.name());
        if (methods.putIfAbsent(method, owner) == null) {
            from.put(method, place);
            waiting.add(method);
        }
    }

    /** An instruction of a method is looked at: the place of the program is its own, or that from which a method of another class was reached. */
    void at(LoadedClass owner, MethodNode method, AbstractInsnNode node) {
        place = owner.origin == Origin.PROGRAM ? Place.of(owner.node, method, node) : from.get(method);
    }

    /** The place of the program from which an instruction was reached; null where there is none. */
    Place place() {
        return place;
    }

    /** A method is named, and one that stands below it may be run in its place. */
    void declare(LoadedClass owner, MethodNode method) {
        if (declared.add(method)) {
            name(owner.name());
            references.nameAll(owner, method, method.desc);
        }
    }

    /** A method is called on any object of a class. */
    void call(String owner, String name, String descriptor) {
        if (!calls.computeIfAbsent(name + descriptor, key -> new LinkedHashSet<>()).add(owner)) {
            return;
        }
        for (LoadedClass each : List.copyOf(instantiated)) {
            if (program.isBelow(each, owner)) {
                select(each, name, descriptor);
            }
        }
    }

    private void select(LoadedClass in, String name, String descriptor) {
        Found<MethodNode> found = program.selected(in, name, descriptor);
        if (found != null && (found.member().access & Opcodes.ACC_ABSTRACT) == 0) {
            method(found.owner(), found.member());
        }
    }

    /** An object of a class is made. */
    void instantiate(LoadedClass made) {
        if (!instantiated.add(made)) {
            return;
        }
        initialise(made);
        calls.forEach((signature, owners) -> {
            int place = signature.indexOf('(');
            if (owners.stream().anyMatch(owner -> program.isBelow(made, owner))) {
                select(made, signature.substring(0, place), signature.substring(place));
            }
        });
    }

    /** A class is initialised: its superclasses and the interfaces with code as well (JLS 12.4.1). */
    void initialise(LoadedClass of) {
        if (!initialised.add(of)) {
            return;
        }
        name(of.name());
        for (LoadedClass each : program.above(of)) {
            if (!each.isInterface() || program.find(each.name() + "$Code") != null) {
                initialise(each);
            }
        }
        MethodNode initialiser = of.method("<clinit>", "()V");
        if (initialiser != null) {
            method(of, initialiser);
        }
    }

    /** A class or array class is named: its file is kept, with what stands above it. False where it isn't there. */
    public boolean name(String name) {
        String element = name.startsWith("[") ? Type.getType(name).getElementType().getDescriptor() : "L" + name + ";";
        if (!element.startsWith("L")) {
            return true;
        }
        LoadedClass found = program.find(element.substring(1, element.length() - 1));
        if (found == null) {
            return false;
        }
        boolean isWhole = true;
        if (named.add(found)) {
            for (String each : found.node.interfaces) {
                isWhole &= name(each);
            }
            isWhole &= found.node.superName == null || name(found.node.superName);
        }
        return isWhole;
    }

    /** A field is used. */
    public void field(FieldNode field) {
        fields.add(field);
    }

    /** An array class is made, and those of its elements, so many in all. */
    public void addArray(String array, int dimensions) {
        for (int k = 0; k < dimensions; k++) {
            arrays.add(array.substring(k));
        }
        name(array);
    }

    /** The array classes that are made. */
    public Set<String> arrays() {
        return arrays;
    }

    /** The array classes that are made below another one, no one behind one that it stands below. */
    public List<String> arraysBelow(String array) {
        List<String> below = new ArrayList<>();
        for (String each : arrays) {
            if (!each.equals(array) && isArrayBelow(each, array)) {
                int place = 0;
                while (place < below.size() && !isArrayBelow(each, below.get(place))) {
                    place++;
                }
                below.add(place, each);
            }
        }
        open(below);
        return below;
    }

    /** Whether a class or an array class is another one, or stands below it. */
    public boolean isBelow(String below, String above) {
        if (below.startsWith("[") && above.startsWith("[")) {
            return below.equals(above) || isArrayBelow(below, above);
        }
        boolean isOfArrays = above.equals("java/lang/Cloneable") || above.equals("java/io/Serializable");
        return below.startsWith("[") ? isOfArrays || above.equals("java/lang/Object") : !above.startsWith("[") && program.isBelow(program.find(below), above);
    }

    /** Lets all classes name the elements of array classes. */
    public void open(List<String> names) {
        for (String name : names) {
            Type element = name.startsWith("[") ? Type.getType(name).getElementType() : Type.getObjectType(name);
            if (element.getSort() == Type.OBJECT) {
                program.find(element.getInternalName()).node.access |= Opcodes.ACC_PUBLIC;
            }
        }
    }

    /** Whether arrays of one class are arrays of the other. */
    private boolean isArrayBelow(String below, String above) {
        String one = below.substring(1);
        String two = above.substring(1);
        if (one.startsWith("[")) {
            return two.startsWith("[") ? isArrayBelow(one, two) : two.equals("Ljava/lang/Object;");
        }
        if (!one.startsWith("L") || !two.startsWith("L")) {
            return one.equals(two);
        }
        LoadedClass found = program.find(one.substring(1, one.length() - 1));
        return found != null && program.isBelow(found, two.substring(1, two.length() - 1));
    }

    /** The loops of a method, in the order of their heads, are gone round so often at most, at one call of it at least. */
    public void bound(MethodNode method, List<LoopBound> counts) {
        List<LoopBound> known = bounds.get(method);
        List<LoopBound> joined = new ArrayList<>();
        for (int k = 0; k < counts.size(); k++) {
            joined.add(known == null ? counts.get(k) : known.get(k).or(counts.get(k)));
        }
        bounds.put(method, joined);
    }

    /** The bounds of loops in methods that were made. */
    public Map<MethodNode, List<LoopBound>> bounds() {
        return bounds;
    }

    /** Adds a method that was made of instructions that are reached. */
    public void addMade(LoadedClass owner, MethodNode method) {
        methods.put(method, owner);
    }

    /** All classes whose files are kept. */
    public Set<LoadedClass> named() {
        return named;
    }

    /** Whether a method's code is kept. */
    public boolean isRun(MethodNode method) {
        return methods.containsKey(method);
    }

    /** Whether a method is kept, though its code isn't. */
    public boolean isDeclared(MethodNode method) {
        return declared.contains(method);
    }

    /** Whether a field is kept. */
    public boolean isUsed(FieldNode field) {
        return fields.contains(field);
    }

    /** Whether objects of a class are made. */
    public boolean isInstantiated(LoadedClass of) {
        return instantiated.contains(of);
    }

    /** Whether a class is initialised. */
    public boolean isInitialised(LoadedClass of) {
        return initialised.contains(of);
    }

    /** The classes of which objects are made. */
    public Set<LoadedClass> instantiated() {
        return instantiated;
    }
}
