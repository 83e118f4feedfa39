package adapt.classes;

import java.util.HashSet;
import java.util.Set;
import org.objectweb.asm.commons.ClassRemapper;
import org.objectweb.asm.commons.Remapper;
import org.objectweb.asm.tree.ClassNode;
import org.objectweb.asm.tree.MethodNode;

/** Puts `jop/Text` where a class file has `java/lang/String`, and `toText` for `toString`. */
public final class TextTypes extends Remapper {
    public static final String TEXT = "jop/Text";
    /** Classes of the library that stand between the two. */
    private static final Set<String> KEPT = Set.of(TEXT, "jop/Strings", "jop/Objects");

    @Override
    public String map(String name) {
        return name.equals(CoreClasses.STRING) ? TEXT : name;
    }

    @Override
    public String mapMethodName(String owner, String name, String descriptor) {
        return name.equals("toString") && descriptor.equals("()Ljava/lang/String;") ? "toText" : name;
    }

    /** Whether a class keeps its strings. */
    public static boolean isKept(String name) {
        return KEPT.contains(name);
    }

    /** The class with the other types; of methods that become the same the one stays that had them. */
    static ClassNode changed(ClassNode from) {
        if (KEPT.contains(from.name)) {
            return from;
        }
        ClassNode to = new ClassNode();
        from.accept(new ClassRemapper(to, new TextTypes()));
        Set<String> own = new HashSet<>();
        from.methods.forEach(method -> own.add(method.name + method.desc));
        Set<MethodNode> doubled = new HashSet<>();
        for (int k = 0; k < from.methods.size(); k++) {
            MethodNode method = to.methods.get(k);
            String signature = method.name + method.desc;
            MethodNode before = from.methods.get(k);
            if (!signature.equals(before.name + before.desc) && own.contains(signature)) {
                doubled.add(method);
            }
        }
        to.methods.removeAll(doubled);
        return to;
    }
}
