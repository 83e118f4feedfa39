import java.io.File;
import java.lang.reflect.InvocationTargetException;
import java.net.URL;
import java.net.URLClassLoader;
import jop.Io;

/** Runs class A of each folder 0, 1, .. of a folder, and prints what it puts out and how it ends, a line each. */
public class Rows {
    public static void main(String[] arguments) throws Exception {
        int count = Integer.parseInt(arguments[1]);
        for (int row = 0; row < count; row++) {
            Io.OUT.reset();
            String end = ending(new File(arguments[0], Integer.toString(row)));
            StringBuilder line = new StringBuilder();
            for (byte each : Io.OUT.toByteArray()) {
                line.append(String.format("%02x", each));
            }
            System.out.println(line + " " + end);
        }
    }

    private static String ending(File folder) throws Exception {
        URL[] places = {folder.toURI().toURL()};
        try (URLClassLoader loader = new URLClassLoader(places)) {
            Object given = new String[0];
            loader.loadClass("A").getMethod("main", String[].class).invoke(null, given);
            return "ended";
        } catch (InvocationTargetException raised) {
            return "uncaught";
        }
    }
}
