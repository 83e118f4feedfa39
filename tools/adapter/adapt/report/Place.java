package adapt.report;

import org.objectweb.asm.tree.AbstractInsnNode;
import org.objectweb.asm.tree.ClassNode;
import org.objectweb.asm.tree.LineNumberNode;
import org.objectweb.asm.tree.MethodNode;

/** A place of the program: a class, its source in the folder of its package (null where the class file names none), a method of it, and a line of
 * its source; where the class file has no lines, the method with its descriptor, and 0. */
public record Place(String owner, String source, String method, int line) {
    /** The place of an instruction of a class, whose line is that of the nearest line number before it, or of the first one. */
    public static Place of(ClassNode owner, MethodNode method, AbstractInsnNode instruction) {
        AbstractInsnNode node = instruction;
        while (node != null && !(node instanceof LineNumberNode)) {
            node = node.getPrevious();
        }
        for (AbstractInsnNode each = method.instructions.getFirst(); node == null && each != null; each = each.getNext()) {
            node = each instanceof LineNumberNode ? each : null;
        }
        String source = owner.sourceFile == null ? null : owner.name.substring(0, owner.name.lastIndexOf('/') + 1) + owner.sourceFile;
        String name = method.name.equals("toText") ? "toString" : method.name;
        return node == null ? new Place(owner.name, source, name + method.desc.replace("jop/Text", "java/lang/String"), 0)
                : new Place(owner.name, source, name, ((LineNumberNode) node).line);
    }

    /** What is told of it, as a compiler tells it: `app/Main.java:7: error: WHAT (app/Main.step); write ..`; the method stands in front where there are
     * no lines, `app/Main.step(I)V: error: WHAT; write ..`, and the class file where nothing names the source. */
    public String told(String what) {
        if (line == 0) {
            return name() + ": error: " + what;
        }
        return (source == null ? owner + ".class" : source + ":" + line) + ": error: " + what + " (" + name() + ")";
    }

    /** As `app/Main.step`. */
    private String name() {
        return owner + (method.isEmpty() ? "" : "." + method);
    }

    /** As `app/Main.step line 7`. */
    @Override
    public String toString() {
        return name() + (line == 0 ? "" : " line " + line);
    }
}
