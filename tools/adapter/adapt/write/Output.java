package adapt.write;

import adapt.classes.LibraryDefaults;
import adapt.classes.LoadedClass;
import adapt.classes.Origin;
import adapt.classes.Program;
import adapt.order.Order;
import adapt.reach.Reach;
import java.io.IOException;
import java.nio.file.Files;
import java.nio.file.Path;
import java.util.ArrayList;
import java.util.List;
import java.util.TreeMap;
import org.objectweb.asm.tree.ClassNode;

/** Puts the class files, the list of them and the bounds of loops into the folder. */
public final class Output {
    private final Program program;
    private final Reach reach;
    private final LoadedClass main;
    private final Writer writer;

    /** For what a reach keeps. */
    public Output(Program program, Reach reach, LoadedClass main) {
        this.program = program;
        this.reach = reach;
        this.main = main;
        this.writer = new Writer(program, reach);
    }

    /** Writes all, or tells what is refused; gives the status of the process. */
    public int write() throws IOException {
        List<String> refused = program.report.refusals();
        if (!refused.isEmpty()) {
            refused.forEach(System.err::println);
            System.err.println("adapt: " + refused.size() + " refused, nothing written");
            return 1;
        }
        new Initialisers(program, reach).cut();
        List<LoadedClass> ordered = new Order(program, reach).classes(main);
        List<String> files = new ArrayList<>();
        StringBuilder bounds = new StringBuilder();
        LoopBounds loops = new LoopBounds(program, reach);
        for (LoadedClass each : ordered) {
            ClassNode node = writer.kept(each);
            byte[] bytes = writer.bytes(node);
            Path file = program.options.folder().resolve(each.name() + ".class");
            Files.createDirectories(file.getParent());
            Files.write(file, bytes);
            files.add(each.name() + ".class");
            bounds.append(loops.lines(each, bytes));
        }
        Files.write(program.options.folder().resolve("files"), files);
        Files.writeString(program.options.folder().resolve("bounds"), bounds.toString());
        notePromises(loops.promises());
        if (reach.named().contains(program.find(LibraryDefaults.CAPACITY))) {
            program.report.note("maps and sets hold at most " + program.options.elements() + " entries, and raise IllegalStateException beyond them"
                    + " (--elements N says otherwise); a collection is no key");
        }
        String fault = new Linker(program, files).fault(main.name());
        tell(ordered);
        if (fault != null) {
            System.err.println("adapt: " + fault);
            return 1;
        }
        return 0;
    }

    /** What the reader of a bound has to see to. */
    private void notePromises(int count) {
        if (count > 0) {
            program.report.note(count + (count == 1 ? " line" : " lines") + " of bounds by promise: arrays of at most " + program.options.elements()
                    + " elements, texts of as many chars (--elements N says otherwise); `# promise` stands before each");
        }
    }

    private void tell(List<LoadedClass> ordered) {
        if (program.options.report()) {
            program.report.changes().forEach(System.out::println);
        }
        program.report.notes().forEach(System.out::println);
        TreeMap<Origin, Integer> counts = new TreeMap<>();
        ordered.forEach(each -> counts.merge(each.origin, 1, Integer::sum));
        System.out.println("adapted " + ordered.size() + " classes: " + counts.getOrDefault(Origin.PROGRAM, 0) + " of the program, "
                + counts.getOrDefault(Origin.LIBRARY, 0) + " of the library, "
                + (counts.getOrDefault(Origin.MADE, 0) + counts.getOrDefault(Origin.PLATFORM, 0)) + " made");
    }
}
