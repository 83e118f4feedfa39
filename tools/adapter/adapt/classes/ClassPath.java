package adapt.classes;

import java.io.IOException;
import java.io.UncheckedIOException;
import java.nio.file.Files;
import java.nio.file.Path;
import java.util.ArrayList;
import java.util.List;
import java.util.TreeSet;
import java.util.jar.JarFile;
import java.util.zip.ZipEntry;

/** The folders and jar files in which class files are sought, in their order. */
public final class ClassPath {
    private final List<Path> folders = new ArrayList<>();
    private final List<JarFile> jars = new ArrayList<>();

    /** Opens the entries; a folder holds class files by their names. */
    public ClassPath(List<Path> entries) throws IOException {
        for (Path entry : entries) {
            if (Files.isDirectory(entry)) {
                folders.add(entry);
            } else {
                jars.add(new JarFile(entry.toFile()));
            }
        }
    }

    /** The bytes of a class file, or null where no entry has it; folders come before jar files. */
    public byte[] find(String name) {
        try {
            for (Path folder : folders) {
                Path file = folder.resolve(name + ".class");
                if (Files.isRegularFile(file)) {
                    return Files.readAllBytes(file);
                }
            }
            return findInJars(name + ".class");
        } catch (IOException fault) {
            throw new UncheckedIOException(fault);
        }
    }

    private byte[] findInJars(String file) throws IOException {
        for (JarFile jar : jars) {
            ZipEntry entry = jar.getEntry(file);
            if (entry != null) {
                return jar.getInputStream(entry).readAllBytes();
            }
        }
        return null;
    }

    /** The names of all classes, in their order. */
    public TreeSet<String> names() throws IOException {
        TreeSet<String> names = new TreeSet<>();
        for (Path folder : folders) {
            try (var files = Files.walk(folder)) {
                files.map(file -> folder.relativize(file).toString()).forEach(file -> addName(names, file));
            }
        }
        for (JarFile jar : jars) {
            jar.stream().forEach(entry -> addName(names, entry.getName()));
        }
        return names;
    }

    private static void addName(TreeSet<String> names, String file) {
        if (file.endsWith(".class") && !file.startsWith("META-INF/") && !file.endsWith("-info.class")) {
            names.add(file.substring(0, file.length() - 6));
        }
    }
}
