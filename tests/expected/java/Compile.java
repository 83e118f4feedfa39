import java.io.ByteArrayOutputStream;
import java.nio.file.Files;
import java.nio.file.Paths;
import javax.tools.JavaCompiler;
import javax.tools.ToolProvider;

/** Compiles what each line of a file says, the words of a call of javac between tabs, in one process; puts the number of each line that fails, and why. */
public class Compile {
    public static void main(String[] words) throws Exception {
        JavaCompiler compiler = ToolProvider.getSystemJavaCompiler();
        int number = 0;
        for (String line : Files.readAllLines(Paths.get(words[0]))) {
            ByteArrayOutputStream said = new ByteArrayOutputStream();
            if (compiler.run(null, said, said, line.split("\t")) != 0) {
                System.out.println(number + "\t" + said.toString().replace('\n', ' '));
            }
            number++;
        }
    }
}
