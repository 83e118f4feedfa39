package adapt.classes;

import java.util.HashMap;
import java.util.Map;
import org.objectweb.asm.Opcodes;
import org.objectweb.asm.tree.ClassNode;
import org.objectweb.asm.tree.FieldNode;
import org.objectweb.asm.tree.MethodNode;

/** A class with its members by name and descriptor. */
public final class LoadedClass {
    public final ClassNode node;
    public final Origin origin;
    private final Map<String, MethodNode> methods = new HashMap<>();
    private final Map<String, FieldNode> fields = new HashMap<>();

    /** A class as it was read or made. */
    public LoadedClass(ClassNode node, Origin origin) {
        this.node = node;
        this.origin = origin;
        node.methods.forEach(method -> methods.put(method.name + method.desc, method));
        node.fields.forEach(field -> fields.put(field.name + " " + field.desc, field));
    }

    /** The class's name, with `/` between packages. */
    public String name() {
        return node.name;
    }

    /** Whether it is an interface. */
    public boolean isInterface() {
        return (node.access & Opcodes.ACC_INTERFACE) != 0;
    }

    /** Whether it has the flag. */
    public boolean has(int flag) {
        return (node.access & flag) != 0;
    }

    /** The method that the class itself declares, or null. */
    public MethodNode method(String name, String descriptor) {
        return methods.get(name + descriptor);
    }

    /** The field that the class itself declares, or null. */
    public FieldNode field(String name, String descriptor) {
        return fields.get(name + " " + descriptor);
    }

    /** Adds a method. */
    public void add(MethodNode method) {
        node.methods.add(method);
        methods.put(method.name + method.desc, method);
    }

    /** Adds a field. */
    public void add(FieldNode field) {
        node.fields.add(field);
        fields.put(field.name + " " + field.desc, field);
    }

    /** Takes a method away. */
    public void remove(MethodNode method) {
        node.methods.remove(method);
        methods.remove(method.name + method.desc);
    }

    /** A name of a method that no method of the class has yet, as `copy$2`. */
    public String freshName(String word) {
        int number = 1;
        while (isTaken(word + "$" + number)) {
            number++;
        }
        return word + "$" + number;
    }

    private boolean isTaken(String name) {
        return node.methods.stream().anyMatch(method -> method.name.equals(name));
    }

    /** Its package, as `java/lang`; empty where it is in none. */
    public String packageName() {
        return packageOf(node.name);
    }

    /** The package of a class's name. */
    public static String packageOf(String name) {
        return name.substring(0, Math.max(0, name.lastIndexOf('/')));
    }
}
