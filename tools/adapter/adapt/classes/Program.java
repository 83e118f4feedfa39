package adapt.classes;

import adapt.Options;
import adapt.report.Report;
import java.util.ArrayList;
import java.util.HashMap;
import java.util.LinkedHashSet;
import java.util.List;
import java.util.Map;
import java.util.Set;
import org.objectweb.asm.Opcodes;
import org.objectweb.asm.tree.ClassNode;
import org.objectweb.asm.tree.FieldNode;
import org.objectweb.asm.tree.MethodNode;

/** All classes that can be named, loaded as they are asked for, and what stands above what. */
public final class Program {
    public final Options options;
    public final Report report = new Report();
    /** What its strings are. */
    public final Strings strings;
    /** Whether they are objects of `jop/Text`. */
    public final boolean isText;
    public final InterfaceCode interfaceCode = new InterfaceCode(this);
    public final Messages messages = new Messages(this);
    /** Of the loops of the library. */
    public final LibraryBounds libraryBounds;
    private final ClassPath path;
    private final ClassPath library;
    private final CoreClasses core = new CoreClasses();
    private final Map<String, LoadedClass> classes = new HashMap<>();

    /** A program of which nothing is loaded yet. */
    public Program(Options options, ClassPath path, ClassPath library, Strings strings) {
        this.options = options;
        this.path = path;
        this.library = library;
        this.libraryBounds = new LibraryBounds(options.library(), options.elements());
        this.strings = strings;
        this.isText = strings != Strings.LITERALS;
    }

    /** The class of a name, or null; that of an array is `java/lang/Object`. */
    public LoadedClass find(String name) {
        String wanted = name.startsWith("[") ? CoreClasses.OBJECT : name;
        LoadedClass known = core.find(wanted);
        if (known != null) {
            return known;
        }
        if (!classes.containsKey(wanted)) {
            classes.put(wanted, null);
            load(wanted);
        }
        return classes.get(wanted);
    }

    private void load(String name) {
        if (name.equals(ClassOfClasses.NAME)) {
            make(ClassOfClasses.node(isText ? "Ljop/Text;" : "Ljava/lang/String;"));
            return;
        }
        byte[] bytes = path.find(name);
        Origin origin = Origin.PROGRAM;
        if (bytes == null) {
            bytes = library.find(name.equals("java/lang/StringBuffer") ? "java/lang/StringBuilder" : name);
            origin = Origin.LIBRARY;
        }
        ClassNode node = bytes == null ? Platform.find(name) : ClassFiles.read(bytes, isText);
        if (node == null) {
            return;
        }
        if (bytes == null) {
            node = isText ? TextTypes.changed(node) : node;
            origin = Origin.PLATFORM;
        }
        if (origin == Origin.LIBRARY) {
            LibraryDefaults.add(node, isText, options.elements());
            LibraryDefaults.add(node, library.find(LibraryDefaults.DEFAULTS), isText);
        }
        keep(new LoadedClass(node.name.equals(name) ? node : ClassFiles.renamed(node, name), origin));
    }

    private void keep(LoadedClass loaded) {
        classes.put(loaded.name(), loaded);
        if (loaded.isInterface()) {
            interfaceCode.move(loaded);
        } else {
            ObjectInterfaces.add(this, loaded);
            messages.add(loaded);
            interfaceCode.forward(loaded);
        }
    }

    /** Adds a class that was made. */
    public LoadedClass make(ClassNode node) {
        LoadedClass made = new LoadedClass(node, Origin.MADE);
        keep(made);
        return made;
    }

    /** The superclass, or null. */
    public LoadedClass superclass(LoadedClass of) {
        return of.node.superName == null ? null : find(of.node.superName);
    }

    /** The class and what stands above it, the superclasses first, then all interfaces, each once. */
    public List<LoadedClass> above(LoadedClass of) {
        Set<LoadedClass> found = new LinkedHashSet<>();
        for (LoadedClass each = of; each != null; each = superclass(each)) {
            found.add(each);
        }
        for (LoadedClass each : new ArrayList<>(found)) {
            addInterfaces(each, found);
        }
        return new ArrayList<>(found);
    }

    private void addInterfaces(LoadedClass of, Set<LoadedClass> found) {
        for (String name : of.node.interfaces) {
            LoadedClass each = find(name);
            if (each != null && found.add(each)) {
                addInterfaces(each, found);
            }
        }
    }

    /** Whether one class or interface is another one or stands below it. */
    public boolean isBelow(LoadedClass below, String above) {
        return above.equals(CoreClasses.OBJECT) || above(below).stream().anyMatch(each -> each.name().equals(above));
    }

    /** The method that a reference names, with the class that has it, or null (JVM Specification, 5.4.3.3). */
    public Found<MethodNode> method(String owner, String name, String descriptor) {
        LoadedClass from = find(owner);
        if (from == null) {
            return null;
        }
        for (LoadedClass each : name.equals("<init>") ? List.of(from) : above(from)) {
            MethodNode method = each.method(name, descriptor);
            if (method != null) {
                return new Found<>(each, method);
            }
        }
        return null;
    }

    /** The field that a reference names, with the class that has it, or null (JVM Specification, 5.4.3.2). */
    public Found<FieldNode> field(String owner, String name, String descriptor) {
        LoadedClass from = find(owner);
        if (from == null) {
            return null;
        }
        FieldNode own = from.field(name, descriptor);
        if (own != null) {
            return new Found<>(from, own);
        }
        List<String> next = new ArrayList<>(from.node.interfaces);
        if (from.node.superName != null) {
            next.add(from.node.superName);
        }
        for (String each : next) {
            Found<FieldNode> found = field(each, name, descriptor);
            if (found != null) {
                return found;
            }
        }
        return null;
    }

    /** The method that a call selects in a class, or null (5.4.6): the first in the class and its superclasses. */
    public Found<MethodNode> selected(LoadedClass in, String name, String descriptor) {
        for (LoadedClass each = in; each != null; each = superclass(each)) {
            MethodNode method = each.method(name, descriptor);
            if (method != null && (method.access & (Opcodes.ACC_STATIC | Opcodes.ACC_PRIVATE)) == 0) {
                return new Found<>(each, method);
            }
        }
        return null;
    }

    /** The nearest class that stands above both; Object where one is an interface. */
    public String common(String first, String second) {
        LoadedClass one = find(first);
        LoadedClass two = find(second);
        if (one == null || two == null || one.isInterface() || two.isInterface()) {
            return CoreClasses.OBJECT;
        }
        for (LoadedClass each = one; each != null; each = superclass(each)) {
            if (isBelow(two, each.name())) {
                return each.name();
            }
        }
        return CoreClasses.OBJECT;
    }
}
