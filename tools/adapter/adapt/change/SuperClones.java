package adapt.change;

import adapt.classes.CoreClasses;
import adapt.classes.LoadedClass;
import adapt.classes.Origin;
import adapt.classes.Platform;
import adapt.classes.Program;
import adapt.reach.Reach;
import adapt.report.Instead;
import adapt.report.Place;
import java.util.ArrayList;
import java.util.HashSet;
import java.util.LinkedHashMap;
import java.util.List;
import java.util.Map;
import java.util.Set;
import org.objectweb.asm.Opcodes;
import org.objectweb.asm.tree.AbstractInsnNode;
import org.objectweb.asm.tree.ClassNode;
import org.objectweb.asm.tree.FieldNode;
import org.objectweb.asm.tree.InsnNode;
import org.objectweb.asm.tree.JumpInsnNode;
import org.objectweb.asm.tree.LabelNode;
import org.objectweb.asm.tree.MethodInsnNode;
import org.objectweb.asm.tree.MethodNode;
import org.objectweb.asm.tree.TypeInsnNode;
import org.objectweb.asm.tree.VarInsnNode;

/**
 * `super.clone()` of Object: a static method that asks for the class of the object, and makes another one by a constructor that copies the fields. In place of
 * `jop/Objects.ofKind`, by which the library's own `clone` makes an object of its class: such a method for the classes below that one.
 */
public final class SuperClones implements Change {
    /** The class of the last argument of a constructor that copies, so that no other one is like it; the argument is null. */
    private static final String COPY = "jop/made/Copy";
    private static final String CLONE = "()Ljava/lang/Object;";
    private static final String OF_KIND = "(Ljava/lang/Object;Ljava/lang/Object;)Ljava/lang/Object;";
    private static final String FAULT = "java/lang/CloneNotSupportedException";
    private final Program program;
    private final Reach reach;
    private final Map<LoadedClass, MethodNode> helpers = new LinkedHashMap<>();
    private final Set<LoadedClass> copied = new HashSet<>();

    /** For the classes of a program; of which classes objects are made is known at the end of the reach. */
    public SuperClones(Program program, Reach reach) {
        this.program = program;
        this.reach = reach;
    }

    @Override
    public void apply(LoadedClass owner, MethodNode method) {
        for (AbstractInsnNode node : method.instructions.toArray()) {
            if (node instanceof MethodInsnNode call && call.getOpcode() == Opcodes.INVOKESPECIAL && isOfObject(call)) {
                MethodNode helper = helpers.computeIfAbsent(owner, key -> helper(owner, method, call));
                program.report.replace(Code.place(owner, method, node), "super.clone()", owner.name() + "." + helper.name);
                method.instructions.set(call, Code.invokeStatic(owner.name(), helper.name, helper.desc));
            } else if (Code.isCall(node, "jop/Objects", "ofKind", OF_KIND)) {
                MethodNode helper = Code.addHelper(owner, "copyObject", OF_KIND);
                addPlain(helper);
                reach.atEnd(() -> fill(helper, owner));
                method.instructions.set(node, Code.invokeStatic(owner.name(), helper.name, helper.desc));
            }
        }
    }

    /** Gives the second argument. */
    private static void addPlain(MethodNode to) {
        to.visitVarInsn(Opcodes.ALOAD, 1);
        to.visitInsn(Opcodes.ARETURN);
    }

    /** Copies of the first argument where its class is below one of the library, else the second one. */
    private void fill(MethodNode helper, LoadedClass owner) {
        List<LoadedClass> below = below(owner);
        below.remove(owner);
        helper.instructions.clear();
        if (!below.isEmpty()) {
            makeMark();
            reach.name(COPY);
        }
        below.forEach(each -> addTest(helper, each));
        addPlain(helper);
    }

    /** Makes the class of the last argument, where it isn't there. */
    private void makeMark() {
        if (program.find(COPY) == null) {
            ClassNode node = new ClassNode();
            node.version = Opcodes.V1_8;
            node.name = COPY;
            node.superName = CoreClasses.OBJECT;
            node.access = Opcodes.ACC_PUBLIC | Opcodes.ACC_SYNTHETIC | Opcodes.ACC_INTERFACE | Opcodes.ACC_ABSTRACT;
            program.make(node);
        }
    }

    private boolean isOfObject(MethodInsnNode call) {
        return call.name.equals("clone") && call.desc.equals(CLONE) && program.find(call.owner) != null
                && program.method(call.owner, call.name, call.desc) == null
                && Platform.declaring(program, call.owner, call.name, call.desc).equals(CoreClasses.OBJECT);
    }

    /** A method that raises an exception until it is filled at the end. */
    private MethodNode helper(LoadedClass owner, MethodNode method, MethodInsnNode call) {
        makeMark();
        MethodNode helper = Code.addHelper(owner, "copyObject", "(L" + owner.name() + ";)Ljava/lang/Object;");
        addFault(helper);
        Place place = Code.place(owner, method, call);
        reach.atEnd(() -> {
            reach.name(COPY);
            helper.instructions.clear();
            for (LoadedClass each : below(owner)) {
                if (canCopy(each)) {
                    addTest(helper, each);
                } else {
                    program.report.refuse(place, "super.clone() of " + each.name(), Instead.of("java/lang/Object", ".clone"));
                }
            }
            addFault(helper);
        });
        return helper;
    }

    /** The classes below one, or itself, of which objects are made and can be cloned, no one behind one that it stands below. */
    private List<LoadedClass> below(LoadedClass owner) {
        List<LoadedClass> found = new ArrayList<>();
        for (LoadedClass each : reach.instantiated()) {
            if (program.isBelow(each, owner.name())) {
                int place = 0;
                while (place < found.size() && !program.isBelow(each, found.get(place).name())) {
                    place++;
                }
                found.add(place, each);
            }
        }
        return found;
    }

    /** Whether no class above but Object is one of the linker's, whose fields nobody can name. */
    private boolean canCopy(LoadedClass of) {
        LoadedClass above = program.superclass(of);
        return above.name().equals(CoreClasses.OBJECT) || above.origin != Origin.CORE && canCopy(above);
    }

    private void addTest(MethodNode to, LoadedClass of) {
        LabelNode other = new LabelNode();
        to.instructions.add(new VarInsnNode(Opcodes.ALOAD, 0));
        to.instructions.add(new TypeInsnNode(Opcodes.INSTANCEOF, of.name()));
        to.instructions.add(new JumpInsnNode(Opcodes.IFEQ, other));
        if (program.isBelow(of, "java/lang/Cloneable")) {
            reach.open(List.of(of.name()));
            to.instructions.add(new TypeInsnNode(Opcodes.NEW, of.name()));
            to.instructions.add(new InsnNode(Opcodes.DUP));
            to.instructions.add(new VarInsnNode(Opcodes.ALOAD, 0));
            to.instructions.add(new TypeInsnNode(Opcodes.CHECKCAST, of.name()));
            to.instructions.add(new InsnNode(Opcodes.ACONST_NULL));
            to.instructions.add(callOf(of));
            to.instructions.add(new InsnNode(Opcodes.ARETURN));
        } else {
            addFault(to);
        }
        to.instructions.add(other);
    }

    private static String descriptor(LoadedClass of) {
        return "(L" + of.name() + ";L" + COPY + ";)V";
    }

    /** A call of the constructor that copies, which is made where it isn't there. */
    private MethodInsnNode callOf(LoadedClass of) {
        if (copied.add(of)) {
            MethodNode made = new MethodNode(Opcodes.ACC_PUBLIC | Opcodes.ACC_SYNTHETIC, "<init>", descriptor(of), null, null);
            LoadedClass above = program.superclass(of);
            made.visitVarInsn(Opcodes.ALOAD, 0);
            if (above.name().equals(CoreClasses.OBJECT)) {
                made.visitMethodInsn(Opcodes.INVOKESPECIAL, CoreClasses.OBJECT, "<init>", "()V", false);
            } else {
                made.visitVarInsn(Opcodes.ALOAD, 1);
                made.visitInsn(Opcodes.ACONST_NULL);
                made.instructions.add(callOf(above));
            }
            for (FieldNode field : of.node.fields) {
                if ((field.access & Opcodes.ACC_STATIC) == 0 && reach.isUsed(field)) {
                    addField(made, of, field);
                }
            }
            made.visitInsn(Opcodes.RETURN);
            of.add(made);
            reach.addMade(of, made);
        }
        return new MethodInsnNode(Opcodes.INVOKESPECIAL, of.name(), "<init>", descriptor(of), false);
    }

    private static void addField(MethodNode to, LoadedClass of, FieldNode field) {
        to.visitVarInsn(Opcodes.ALOAD, 0);
        to.visitVarInsn(Opcodes.ALOAD, 1);
        to.visitFieldInsn(Opcodes.GETFIELD, of.name(), field.name, field.desc);
        to.visitFieldInsn(Opcodes.PUTFIELD, of.name(), field.name, field.desc);
    }

    private static void addFault(MethodNode to) {
        to.visitTypeInsn(Opcodes.NEW, FAULT);
        to.visitInsn(Opcodes.DUP);
        to.visitMethodInsn(Opcodes.INVOKESPECIAL, FAULT, "<init>", "()V", false);
        to.visitInsn(Opcodes.ATHROW);
    }
}
