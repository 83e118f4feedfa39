package adapt.write;

import adapt.classes.CoreClasses;
import adapt.classes.Program;
import java.io.IOException;
import java.nio.charset.StandardCharsets;
import java.nio.file.Files;
import java.nio.file.Path;
import java.util.ArrayList;
import java.util.List;
import org.objectweb.asm.ClassWriter;
import org.objectweb.asm.MethodVisitor;
import org.objectweb.asm.Opcodes;

/** Hands what was written to `jop link`, and what runs before `main` to `jop run`, where a `jop` is known. */
final class Linker {
    private static final String JOP = System.getProperty("adapt.jop", "");
    /** A class whose `main` does nothing. */
    private static final String NOTHING = "jop/made/Nothing";
    /** After so many cycles nothing is said of the initialisers. */
    private static final String CYCLES = "20000000";
    private final Program program;
    private final List<String> files;

    /** For class files in the folder that is written. */
    Linker(Program program, List<String> files) {
        this.program = program;
        this.files = files;
    }

    /** Why the class files aren't linked; null where they are, or where no `jop` is known, which is noted. An exception before `main` is noted, too. */
    String fault(String main) throws IOException {
        if (JOP.isEmpty()) {
            program.report.note("not linked, since no jop is here: ADAPT_JOP names one");
            return null;
        }
        Path image = Files.createTempFile("jop-adapt-", ".jopi");
        try {
            String fault = link(main, image, files);
            if (fault == null) {
                noteRaised(image);
            }
            return fault == null ? null : "jop link refuses what was written: " + fault;
        } finally {
            Files.delete(image);
        }
    }

    /** Why class files aren't linked, or null. */
    private String link(String main, Path image, List<String> of) throws IOException {
        List<String> words = new ArrayList<>(List.of("link", "--main", main));
        words.addAll(of);
        String told = told(words, image);
        return told.startsWith("linked ") ? null : told;
    }

    /** Runs the static initialisers alone, with no input. */
    private void noteRaised(Path image) throws IOException {
        Path nothing = Files.createTempFile("jop-adapt-", ".class");
        try {
            Files.write(nothing, nothing());
            List<String> all = new ArrayList<>(files);
            all.add(nothing.toString());
            if (link(NOTHING, image, all) == null) {
                String told = told(List.of("run", "--cycles", CYCLES, image.toString()), null);
                if (told.startsWith("uncaught ")) {
                    program.report.note("a static initialiser raises " + told.split(" ")[1] + " before main, which ends the program");
                }
            }
        } finally {
            Files.delete(nothing);
        }
    }

    /** What `jop` says of a call on standard error; what it puts out goes to a file, or nowhere. */
    private String told(List<String> words, Path output) throws IOException {
        List<String> all = new ArrayList<>(List.of(JOP));
        all.addAll(words);
        var to = output == null ? ProcessBuilder.Redirect.DISCARD : ProcessBuilder.Redirect.to(output.toFile());
        Process call = new ProcessBuilder(all).directory(program.options.folder().toFile()).redirectOutput(to).start();
        call.getOutputStream().close();
        String told = new String(call.getErrorStream().readAllBytes(), StandardCharsets.UTF_8).strip();
        try {
            call.waitFor();
        } catch (InterruptedException stopped) {
            throw new IOException(stopped);
        }
        return told;
    }

    private static byte[] nothing() {
        ClassWriter writer = new ClassWriter(0);
        writer.visit(Opcodes.V1_8, Opcodes.ACC_PUBLIC | Opcodes.ACC_SUPER, NOTHING, null, CoreClasses.OBJECT, null);
        MethodVisitor main = writer.visitMethod(Opcodes.ACC_PUBLIC | Opcodes.ACC_STATIC, "main", "([Ljava/lang/String;)V", null, null);
        main.visitCode();
        main.visitInsn(Opcodes.RETURN);
        main.visitMaxs(0, 1);
        main.visitEnd();
        return writer.toByteArray();
    }
}
