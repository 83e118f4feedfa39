import java.io.FileOutputStream;
import java.io.PrintStream;
import java.lang.reflect.InvocationTargetException;
import java.nio.file.Files;
import java.nio.file.Paths;

/** Runs `main` of each class that a file names, one after another in one process, and puts what each puts out into a file of its name in a folder. */
public class Run {
    public static void main(String[] words) throws Exception {
        for (String name : Files.readAllLines(Paths.get(words[0]))) {
            try (PrintStream out = new PrintStream(new FileOutputStream(words[1] + "/" + name), false, "ISO-8859-1")) {
                System.setOut(out);
                Class.forName(name).getMethod("main", String[].class).invoke(null, (Object) new String[0]);
            } catch (InvocationTargetException raised) {
                System.err.println(name + " ends by " + raised.getCause());
            }
        }
    }
}
