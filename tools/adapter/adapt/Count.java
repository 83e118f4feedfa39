package adapt;

import adapt.classes.ClassPath;
import adapt.classes.LoadedClass;
import adapt.classes.Program;
import adapt.classes.Strings;
import adapt.reach.Reach;
import java.io.IOException;
import java.nio.file.Path;
import java.util.HashMap;
import java.util.List;
import java.util.Map;
import java.util.TreeSet;
import org.objectweb.asm.Opcodes;
import org.objectweb.asm.tree.MethodNode;

/** Counts the methods with code of the entries of a class path, and those of which each instruction adapts. */
final class Count {
    private final Options options;
    private final ClassPath path;
    private final ClassPath library;
    private final Map<String, Integer> only = new HashMap<>();
    private int methods;
    private int adapted;

    Count(Options options, ClassPath path, ClassPath library) {
        this.options = options;
        this.path = path;
        this.library = library;
    }

    /** Prints both numbers for each entry and for all, and what alone refuses methods, the most frequent first. */
    void run() throws IOException {
        for (Path entry : options.classPath()) {
            int methodsBefore = methods;
            int adaptedBefore = adapted;
            Program program = new Program(options, path, library, Strings.MESSAGES);
            for (String name : new ClassPath(List.of(entry)).names()) {
                count(program, name);
            }
            System.out.println(entry.getFileName() + " methods=" + (methods - methodsBefore) + " adapted=" + (adapted - adaptedBefore));
        }
        System.out.println("all methods=" + methods + " adapted=" + adapted);
        only.entrySet().stream().sorted(Map.Entry.<String, Integer>comparingByValue().reversed())
                .forEach(entry -> System.out.println(entry.getValue() + " " + entry.getKey()));
    }

    private void count(Program program, String name) {
        LoadedClass of = program.find(name);
        if (of == null) {
            return;
        }
        for (MethodNode method : List.copyOf(of.node.methods)) {
            count(program, of, method);
        }
        LoadedClass code = of.isInterface() ? program.find(name + "$Code") : null;
        for (MethodNode method : code == null ? List.<MethodNode>of() : List.copyOf(code.node.methods)) {
            count(program, code, method);
        }
    }

    private void count(Program program, LoadedClass of, MethodNode method) {
        int forward = Opcodes.ACC_SYNTHETIC;
        if (method.instructions.size() == 0 || (method.access & Opcodes.ACC_ABSTRACT) != 0 || (method.access & forward) == forward && method.maxStack == 0) {
            return;
        }
        methods++;
        int before = program.report.marks().size();
        new Reach(program).only(of, method);
        List<String> marks = program.report.marks().subList(before, program.report.marks().size());
        if (marks.isEmpty()) {
            adapted++;
        }
        TreeSet<String> kinds = new TreeSet<>(marks);
        if (kinds.size() == 1) {
            only.merge(kinds.first(), 1, Integer::sum);
        }
    }
}
