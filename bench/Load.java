import java.nio.file.Files;
import java.nio.file.Path;
import java.util.ArrayList;
import java.util.List;

/** Has a virtual machine load, link and verify the classes of `0.class`, `1.class` and so on, each behind its supertypes: how many microseconds that took, and what came of it. */
public class Load extends ClassLoader {
    private void verify(List<byte[]> files) throws ClassNotFoundException {
        List<Class<?>> classes = new ArrayList<>();
        for (byte[] file : files) {
            classes.add(defineClass(null, file, 0, file.length));
        }
        for (Class<?> each : classes) {
            Class.forName(each.getName(), true, this);
        }
    }

    public static void main(String[] arguments) throws Exception {
        List<byte[]> files = new ArrayList<>();
        while (files.size() < Integer.parseInt(arguments[0])) {
            files.add(Files.readAllBytes(Path.of(files.size() + ".class")));
        }
        String answer = "verified";
        long start = System.nanoTime();
        try {
            new Load().verify(files);
        } catch (LinkageError | StackOverflowError | OutOfMemoryError error) {
            answer = error.getClass().getSimpleName();
        }
        System.out.println((System.nanoTime() - start) / 1000 + " " + answer);
    }
}
