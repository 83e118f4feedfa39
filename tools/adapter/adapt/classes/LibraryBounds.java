package adapt.classes;

import java.io.IOException;
import java.io.UncheckedIOException;
import java.nio.file.Files;
import java.nio.file.Path;
import java.util.HashMap;
import java.util.List;
import java.util.Map;
import java.util.TreeMap;

/** The bounds of the library's loops, from its file of bounds; the word behind the source line of one says what is promised. */
public final class LibraryBounds {
    private final Map<String, TreeMap<Integer, LoopBound>> bounds = new HashMap<>();
    private final int elements;

    /** Reads the file beside the folder of class files, for arrays of so many elements at most; there may be none. */
    LibraryBounds(Path folder, int elements) {
        this.elements = elements;
        Path file = folder.resolveSibling("bounds");
        try {
            String before = "";
            for (String line : Files.isRegularFile(file) ? Files.readAllLines(file) : List.<String>of()) {
                String[] parts = line.split(" ");
                if (!line.startsWith("#") && parts.length == 3) {
                    int count = Integer.parseInt(parts[2].substring("loop<=".length()));
                    bounds.computeIfAbsent(parts[0], key -> new TreeMap<>()).put(Integer.valueOf(parts[1]), bound(count, before));
                }
                before = line;
            }
        } catch (IOException fault) {
            throw new UncheckedIOException(fault);
        }
    }

    /** The bound of a number, by the line before it. */
    private LoopBound bound(int count, String before) {
        return switch (before.substring(before.lastIndexOf(' ') + 1)) {
            case "elements" -> LoopBound.ofElements(elements, elements);
            case "halves" -> LoopBound.ofElements(elements / 2, elements);
            case "levels" -> LoopBound.ofElements(Integer.SIZE - Integer.numberOfLeadingZeros(elements), elements);
            case "entries" -> LoopBound.always(elements);
            case "cells" -> LoopBound.always(Math.max(16, Integer.highestOneBit(Math.max(0, elements - 1)) << 2));
            case "doublings" -> LoopBound.always(Integer.SIZE - Integer.numberOfLeadingZeros(elements) + 1);
            case "tries" -> new LoopBound(count, "at most " + count + " tries");
            default -> LoopBound.always(count);
        };
    }

    /** Those of a method, in the order of their places, whether its strings are literals or texts. */
    public List<LoopBound> of(String owner, String method) {
        TreeMap<Integer, LoopBound> found = bounds.get(owner + "." + method);
        if (found == null) {
            found = bounds.get(owner + "." + method.replace("Ljop/Text;", "Ljava/lang/String;"));
        }
        return found == null ? List.of() : List.copyOf(found.values());
    }
}
