package adapt.change;

import adapt.classes.ClassOfClasses;
import adapt.classes.CoreClasses;
import adapt.classes.LoadedClass;
import adapt.classes.Origin;
import adapt.classes.Program;
import adapt.reach.Reach;
import java.util.ArrayList;
import java.util.LinkedHashMap;
import java.util.List;
import java.util.Map;
import org.objectweb.asm.Label;
import org.objectweb.asm.MethodVisitor;
import org.objectweb.asm.Opcodes;
import org.objectweb.asm.Type;
import org.objectweb.asm.tree.AbstractInsnNode;
import org.objectweb.asm.tree.FieldInsnNode;
import org.objectweb.asm.tree.FieldNode;
import org.objectweb.asm.tree.InnerClassNode;
import org.objectweb.asm.tree.LdcInsnNode;
import org.objectweb.asm.tree.MethodInsnNode;
import org.objectweb.asm.tree.MethodNode;

/** Class literals and `getClass`: objects that are made at the start, one for each class, which tell its name. */
public final class ClassObjects implements Change {
    private static final String OF = "(Ljava/lang/Object;)Ljava/lang/Class;";
    private final Program program;
    private final Reach reach;
    private final Map<String, FieldNode> fields = new LinkedHashMap<>();
    private LoadedClass table;

    /** For the classes of a program. */
    public ClassObjects(Program program, Reach reach) {
        this.program = program;
        this.reach = reach;
    }

    @Override
    public void apply(LoadedClass owner, MethodNode method) {
        for (AbstractInsnNode node : method.instructions.toArray()) {
            if (node instanceof LdcInsnNode ldc && ldc.cst instanceof Type type && type.getSort() >= Type.ARRAY && type.getSort() <= Type.OBJECT) {
                program.report.replace(Code.place(owner, method, node), "class literal", ClassFiles.TABLE);
                method.instructions.set(node, new FieldInsnNode(Opcodes.GETSTATIC, ClassFiles.TABLE, field(type.getInternalName()).name, ClassFiles.TYPE));
            } else if (node instanceof MethodInsnNode call && Code.isCall(node, null, "getClass", "()Ljava/lang/Class;")) {
                program.report.replace(Code.place(owner, method, node), "getClass", ClassFiles.TABLE);
                makeTable();
                method.instructions.set(call, Code.invokeStatic(ClassFiles.TABLE, "of", OF));
            }
        }
    }

    private void makeTable() {
        if (table != null) {
            return;
        }
        String string = program.isText ? "Ljop/Text;" : "Ljava/lang/String;";
        program.make(ClassFiles.ofKind());
        table = program.make(ClassFiles.ofTable(OF, string));
        reach.atEnd(this::fill);
    }

    /** The field with the object of a class. */
    private FieldNode field(String name) {
        makeTable();
        return fields.computeIfAbsent(name, key -> {
            FieldNode field = new FieldNode(Opcodes.ACC_PUBLIC | Opcodes.ACC_STATIC, "class" + fields.size(), ClassFiles.TYPE, null, null);
            table.add(field);
            reach.field(field);
            return field;
        });
    }

    /** Writes what needs all classes of which objects are made. */
    private void fill() {
        MethodNode of = table.method("of", OF);
        if (reach.isRun(of)) {
            of.instructions.clear();
            List<String> others = new ArrayList<>(CoreClasses.RAISED);
            for (LoadedClass each : List.copyOf(reach.instantiated())) {
                if (each.origin == Origin.CORE && !others.contains(each.name())) {
                    others.add(each.name());
                } else if (each.origin != Origin.CORE) {
                    addKind(each);
                }
            }
            addTests(of, ordered(others), reach.arraysBelow("[Ljava/lang/Object;"));
        }
        MethodNode initialiser = table.method("<clinit>", "()V");
        initialiser.instructions.clear();
        fields.forEach((name, field) -> ClassFiles.addMaking(initialiser, shown(name), field.name, program.isText));
        if (reach.isRun(program.find(ClassOfClasses.NAME).method("isAssignableFrom", ClassOfClasses.IS_ASSIGNABLE))) {
            addOrder(initialiser);
        }
        if (reach.isRun(program.find(ClassOfClasses.NAME).method("getSimpleName", program.isText ? "()Ljop/Text;" : "()Ljava/lang/String;"))) {
            fields.forEach((name, field) -> ClassFiles.addSimpleName(initialiser, field.name, simpleName(name), program.isText));
        }
        initialiser.visitInsn(Opcodes.RETURN);
    }

    /** The name that the source gives a class or an array class: none of one without a name, that within its class of one in another class. */
    private String simpleName(String name) {
        if (name.startsWith("[")) {
            Type element = Type.getType(name).getElementType();
            String shown = element.getSort() == Type.OBJECT ? simpleName(element.getInternalName()) : element.getClassName();
            return shown + "[]".repeat(name.lastIndexOf('[') + 1);
        }
        List<InnerClassNode> own = program.find(name).node.innerClasses;
        String shown = own.isEmpty() ? shown(name) : own.get(0).innerName == null ? "" : own.get(0).innerName;
        return shown.substring(shown.lastIndexOf('.') + 1);
    }

    /** Tells each object which classes its own one is, or stands below. */
    private void addOrder(MethodNode initialiser) {
        int number = 0;
        for (Map.Entry<String, FieldNode> each : fields.entrySet()) {
            StringBuilder above = new StringBuilder();
            fields.keySet().forEach(other -> above.append(reach.isBelow(each.getKey(), other) ? '1' : '0'));
            ClassFiles.addOrder(initialiser, each.getValue().name, number, above.toString());
            number++;
        }
    }

    /** Classes before those that they stand below. */
    private List<String> ordered(List<String> names) {
        List<String> ordered = new ArrayList<>();
        for (String name : names) {
            int place = 0;
            while (place < ordered.size() && !program.isBelow(program.find(name), ordered.get(place))) {
                place++;
            }
            ordered.add(place, name);
        }
        return ordered;
    }

    private void addKind(LoadedClass to) {
        to.node.interfaces.add(ClassFiles.KIND);
        MethodNode method = new MethodNode(Opcodes.ACC_PUBLIC | Opcodes.ACC_SYNTHETIC, ClassFiles.GET, "()" + ClassFiles.TYPE, null, null);
        method.visitFieldInsn(Opcodes.GETSTATIC, ClassFiles.TABLE, field(to.name()).name, ClassFiles.TYPE);
        method.visitInsn(Opcodes.ARETURN);
        to.add(method);
        reach.addMade(to, method);
    }

    private void addTests(MethodNode to, List<String> classes, List<String> arrays) {
        Label other = new Label();
        to.visitVarInsn(Opcodes.ALOAD, 0);
        to.visitTypeInsn(Opcodes.INSTANCEOF, ClassFiles.KIND);
        to.visitJumpInsn(Opcodes.IFEQ, other);
        to.visitVarInsn(Opcodes.ALOAD, 0);
        to.visitTypeInsn(Opcodes.CHECKCAST, ClassFiles.KIND);
        to.visitMethodInsn(Opcodes.INVOKEINTERFACE, ClassFiles.KIND, ClassFiles.GET, "()" + ClassFiles.TYPE, true);
        to.visitInsn(Opcodes.ARETURN);
        to.visitLabel(other);
        List<String> all = new ArrayList<>(arrays);
        reach.arrays().stream().filter(each -> each.length() == 2 && "ZCBSIJ".contains(each.substring(1))).forEach(all::add);
        all.add("[Ljava/lang/Object;");
        all.addAll(classes.stream().filter(each -> !each.equals(CoreClasses.OBJECT)).toList());
        all.forEach(each -> addTest(to, each));
        Label none = new Label();
        to.visitVarInsn(Opcodes.ALOAD, 0);
        to.visitJumpInsn(Opcodes.IFNULL, none);
        to.visitFieldInsn(Opcodes.GETSTATIC, ClassFiles.TABLE, field(CoreClasses.OBJECT).name, ClassFiles.TYPE);
        to.visitInsn(Opcodes.ARETURN);
        to.visitLabel(none);
        ClassFiles.addThrow(to, "java/lang/NullPointerException");
    }

    private void addTest(MethodVisitor to, String name) {
        Label other = new Label();
        to.visitVarInsn(Opcodes.ALOAD, 0);
        to.visitTypeInsn(Opcodes.INSTANCEOF, name);
        to.visitJumpInsn(Opcodes.IFEQ, other);
        to.visitFieldInsn(Opcodes.GETSTATIC, ClassFiles.TABLE, field(name).name, ClassFiles.TYPE);
        to.visitInsn(Opcodes.ARETURN);
        to.visitLabel(other);
    }

    /** The name that a Java virtual machine gives a class; that of one which was made below another one is the other one's. */
    private String shown(String name) {
        String original = name;
        if (program.messages.isTelling(name)) {
            original = program.find(name).node.superName;
        }
        return original.replace("jop/Text", "java/lang/String").replace('/', '.');
    }
}
