package adapt.classes;

import static org.objectweb.asm.Opcodes.ACC_ABSTRACT;
import static org.objectweb.asm.Opcodes.ACC_FINAL;
import static org.objectweb.asm.Opcodes.ACC_INTERFACE;
import static org.objectweb.asm.Opcodes.ACC_PUBLIC;
import static org.objectweb.asm.Opcodes.ACC_STATIC;
import static org.objectweb.asm.Opcodes.ACC_SUPER;

import java.util.List;
import java.util.Map;
import java.util.TreeMap;
import org.objectweb.asm.Opcodes;
import org.objectweb.asm.tree.ClassNode;
import org.objectweb.asm.tree.MethodNode;

/** The 23 classes that the linker brings, with their members (docs/java.md). */
public final class CoreClasses {
    public static final String OBJECT = "java/lang/Object";
    public static final String STRING = "java/lang/String";
    public static final String THROWABLE = "java/lang/Throwable";
    /** Those of which the machine itself raises objects. */
    public static final List<String> RAISED = List.of("java/lang/ArithmeticException", "java/lang/ArrayIndexOutOfBoundsException",
            "java/lang/ArrayStoreException", "java/lang/ClassCastException", "java/lang/NegativeArraySizeException",
            "java/lang/NullPointerException", "java/lang/IncompatibleClassChangeError", "java/lang/OutOfMemoryError",
            "java/lang/StackOverflowError");
    private static final String RUNTIME = "java/lang/RuntimeException";
    private final Map<String, LoadedClass> classes = new TreeMap<>();

    /** Makes them. */
    public CoreClasses() {
        add(OBJECT, null, ACC_PUBLIC, "<init>()V");
        add("java/io/Serializable", OBJECT, ACC_PUBLIC | ACC_INTERFACE | ACC_ABSTRACT);
        add("java/lang/Cloneable", OBJECT, ACC_PUBLIC | ACC_INTERFACE | ACC_ABSTRACT);
        add(STRING, OBJECT, ACC_PUBLIC | ACC_FINAL, "length()I", "charAt(I)C");
        add(THROWABLE, OBJECT, ACC_PUBLIC, "<init>()V", "<init>(Ljava/lang/String;)V", "getMessage()Ljava/lang/String;");
        addExceptions();
        add("jop/Io", OBJECT, ACC_PUBLIC | ACC_FINAL, "read()I", "write(I)V");
        for (String name : List.of(STRING, THROWABLE)) {
            classes.get(name).node.interfaces.add("java/io/Serializable");
        }
        classes.get("jop/Io").node.methods.forEach(method -> method.access |= ACC_STATIC);
    }

    private void addExceptions() {
        exception("java/lang/Exception", THROWABLE);
        exception("java/lang/Error", THROWABLE);
        exception(RUNTIME, "java/lang/Exception");
        for (String word : List.of("Arithmetic", "ArrayStore", "ClassCast", "IllegalArgument", "IllegalState", "IndexOutOfBounds",
                "NegativeArraySize", "NullPointer")) {
            exception("java/lang/" + word + "Exception", RUNTIME);
        }
        exception("java/lang/ArrayIndexOutOfBoundsException", "java/lang/IndexOutOfBoundsException");
        exception("java/lang/LinkageError", "java/lang/Error");
        exception("java/lang/VirtualMachineError", "java/lang/Error");
        exception("java/lang/IncompatibleClassChangeError", "java/lang/LinkageError");
        exception("java/lang/OutOfMemoryError", "java/lang/VirtualMachineError");
        exception("java/lang/StackOverflowError", "java/lang/VirtualMachineError");
        classes.get("java/lang/VirtualMachineError").node.access |= ACC_ABSTRACT;
    }

    private void exception(String name, String superclass) {
        add(name, superclass, ACC_PUBLIC, "<init>()V", "<init>(Ljava/lang/String;)V");
    }

    private void add(String name, String superclass, int access, String... methods) {
        ClassNode node = new ClassNode();
        node.version = Opcodes.V1_8;
        node.name = name;
        node.superName = superclass;
        node.access = access | ((access & ACC_INTERFACE) == 0 ? ACC_SUPER : 0);
        for (String text : methods) {
            int place = text.indexOf('(');
            node.methods.add(new MethodNode(ACC_PUBLIC, text.substring(0, place), text.substring(place), null, null));
        }
        classes.put(name, new LoadedClass(node, Origin.CORE));
    }

    /** The core class of a name, or null. */
    public LoadedClass find(String name) {
        return classes.get(name);
    }
}
