package adapt;

import adapt.classes.ClassPath;
import adapt.classes.LoadedClass;
import adapt.classes.Program;
import adapt.classes.Strings;
import adapt.classes.TextNeeded;
import adapt.reach.Reach;
import adapt.write.Output;
import java.io.IOException;
import java.nio.file.Files;
import java.nio.file.Path;
import java.util.List;
import org.objectweb.asm.Opcodes;
import org.objectweb.asm.tree.MethodNode;

/** Writes class files that the linker takes, of those of a program; tells what it can't. */
public final class Main {
    private Main() {
    }

    /** The first word is the folder of the library, the others are those of the command, or `--batch` and a file of such commands. */
    public static void main(String[] words) throws IOException {
        if (words.length != 3 || !words[1].equals("--batch")) {
            System.exit(call(words));
        }
        System.setErr(System.out);
        for (String line : Files.readAllLines(Path.of(words[2]))) {
            int status = call((words[0] + "\t" + line).split("\t"));
            System.out.println("status " + status);
        }
    }

    private static int call(String[] words) throws IOException {
        Options options = Options.read(words);
        if (options == null) {
            System.err.println("usage: " + Options.USAGE);
            return 2;
        }
        for (Path entry : options.classPath()) {
            if (!Files.exists(entry)) {
                System.err.println("adapt: " + entry + " isn't there");
                return 2;
            }
        }
        ClassPath path = new ClassPath(options.classPath());
        ClassPath library = new ClassPath(List.of(options.library()));
        if (options.count()) {
            new Count(options, path, library).run();
            return 0;
        }
        return adapt(options, path, library, Strings.LITERALS);
    }

    /** Adapts a program whose strings are as given, or need more. */
    private static int adapt(Options options, ClassPath path, ClassPath library, Strings strings) throws IOException {
        Program program = new Program(options, path, library, strings);
        LoadedClass main = program.find(options.main());
        MethodNode method = main == null ? null : mainMethod(program, main);
        if (method == null) {
            System.err.println("adapt: no public static void main(String[]) in " + options.main());
            return 2;
        }
        Reach reach = new Reach(program);
        try {
            reach.from(main, method);
        } catch (TextNeeded needed) {
            return adapt(options, path, library, needed.strings);
        }
        return new Output(program, reach, main).write();
    }

    /** The method that is run first, whose parameter stays an array of the linker's strings. */
    private static MethodNode mainMethod(Program program, LoadedClass main) {
        String descriptor = program.isText ? "([Ljop/Text;)V" : "([Ljava/lang/String;)V";
        MethodNode method = main.method("main", descriptor);
        int wanted = Opcodes.ACC_PUBLIC | Opcodes.ACC_STATIC;
        if (method == null || (method.access & wanted) != wanted) {
            return null;
        }
        if (!program.isText) {
            return method;
        }
        MethodNode first = new MethodNode(wanted, "main", "([Ljava/lang/String;)V", null, null);
        first.visitInsn(Opcodes.ICONST_0);
        first.visitTypeInsn(Opcodes.ANEWARRAY, "jop/Text");
        first.visitMethodInsn(Opcodes.INVOKESTATIC, main.name(), "main", descriptor, main.isInterface());
        first.visitInsn(Opcodes.RETURN);
        main.add(first);
        return first;
    }
}
