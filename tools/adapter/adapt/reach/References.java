package adapt.reach;

import adapt.classes.CoreClasses;
import adapt.classes.Found;
import adapt.classes.LoadedClass;
import adapt.classes.Origin;
import adapt.classes.Platform;
import adapt.classes.Program;
import adapt.classes.TextNeeded;
import adapt.report.Instead;
import adapt.report.Place;
import org.objectweb.asm.Opcodes;
import org.objectweb.asm.Type;
import org.objectweb.asm.tree.AbstractInsnNode;
import org.objectweb.asm.tree.FieldInsnNode;
import org.objectweb.asm.tree.FieldNode;
import org.objectweb.asm.tree.IntInsnNode;
import org.objectweb.asm.tree.InvokeDynamicInsnNode;
import org.objectweb.asm.tree.LdcInsnNode;
import org.objectweb.asm.tree.MethodInsnNode;
import org.objectweb.asm.tree.MethodNode;
import org.objectweb.asm.tree.TryCatchBlockNode;
import org.objectweb.asm.tree.TypeInsnNode;

/** Reads what the instructions of a method name, and tells what can't be adapted. */
final class References {
    private final Program program;
    private final Reach reach;
    private final LiteralUse literals;

    References(Program program, Reach reach) {
        this.program = program;
        this.reach = reach;
        this.literals = new LiteralUse(program);
    }

    /** Reaches all that a method names. */
    void visit(LoadedClass owner, MethodNode method) {
        reach.at(owner, method, null);
        nameAll(owner, method, method.desc);
        if ((method.access & Opcodes.ACC_NATIVE) != 0) {
            refuse(owner, method, null, "native method", Instead.NATIVE);
        }
        for (TryCatchBlockNode block : method.tryCatchBlocks) {
            if (block.type != null) {
                name(owner, method, block.handler, block.type);
            }
        }
        for (AbstractInsnNode node : method.instructions) {
            reach.at(owner, method, node);
            visit(owner, method, node);
        }
    }

    private void visit(LoadedClass owner, MethodNode method, AbstractInsnNode node) {
        literals.see(owner, node);
        if (Floats.isFloat(node)) {
            refuse(owner, method, node, "float or double", Instead.FLOAT);
        } else if (node instanceof TypeInsnNode type) {
            visitType(owner, method, type);
        } else if (node instanceof FieldInsnNode field) {
            visitField(owner, method, field);
        } else if (node instanceof MethodInsnNode call) {
            visitCall(owner, method, call);
        } else if (node instanceof LdcInsnNode ldc && !(ldc.cst instanceof Number || ldc.cst instanceof String)) {
            refuse(owner, method, node, "class literal or constant " + ldc.cst, Instead.LITERAL);
        } else if (node instanceof InvokeDynamicInsnNode site) {
            refuse(owner, method, node, "invokedynamic of " + site.bsm.getOwner(), Instead.DYNAMIC);
        } else if (node instanceof IntInsnNode made && made.getOpcode() == Opcodes.NEWARRAY) {
            reach.addArray("[" + "ZCFDBSIJ".charAt(made.operand - 4), 1);
        }
    }

    private void visitType(LoadedClass owner, MethodNode method, TypeInsnNode node) {
        if (!name(owner, method, node, node.desc)) {
            return;
        }
        if (node.getOpcode() == Opcodes.NEW) {
            reach.instantiate(program.find(node.desc));
        } else if (node.getOpcode() == Opcodes.ANEWARRAY) {
            reach.addArray(node.desc.startsWith("[") ? "[" + node.desc : "[L" + node.desc + ";", 1);
        }
    }

    private void visitField(LoadedClass owner, MethodNode method, FieldInsnNode node) {
        if (!name(owner, method, node, node.owner)) {
            return;
        }
        Found<FieldNode> found = program.field(node.owner, node.name, node.desc);
        if (found == null) {
            missing(owner, method, node, node.owner, "." + node.name, node.desc);
            return;
        }
        reach.field(found.member());
        reach.name(found.owner().name());
        nameAll(owner, method, node.desc);
        boolean isStatic = node.getOpcode() == Opcodes.GETSTATIC || node.getOpcode() == Opcodes.PUTSTATIC;
        if (isStatic && found.member().value == null) {
            reach.initialise(found.owner());
        }
    }

    private void visitCall(LoadedClass owner, MethodNode method, MethodInsnNode node) {
        if (!name(owner, method, node, node.owner)) {
            return;
        }
        Found<MethodNode> found = program.method(node.owner, node.name, node.desc);
        if (found == null) {
            missing(owner, method, node, node.owner, "." + node.name, node.desc);
            return;
        }
        boolean isSelected = node.getOpcode() == Opcodes.INVOKEVIRTUAL || node.getOpcode() == Opcodes.INVOKEINTERFACE;
        if (isSelected && (found.member().access & Opcodes.ACC_PRIVATE) == 0) {
            reach.declare(found.owner(), found.member());
            reach.call(found.owner().name(), node.name, node.desc);
        } else {
            reach.method(found.owner(), found.member());
        }
        if (node.getOpcode() == Opcodes.INVOKESTATIC) {
            reach.initialise(found.owner());
            initialiseInterface(found.owner());
        }
    }

    private void initialiseInterface(LoadedClass of) {
        String name = program.interfaceCode.interfaceOf(of.name());
        if (name != null) {
            reach.initialise(program.find(name));
        }
    }

    /** Names the classes of a descriptor; floats in it are refused. */
    void nameAll(LoadedClass owner, MethodNode method, String descriptor) {
        Type type = Type.getType(descriptor);
        if (type.getSort() == Type.METHOD) {
            for (Type each : type.getArgumentTypes()) {
                nameAll(owner, method, each.getDescriptor());
            }
            nameAll(owner, method, type.getReturnType().getDescriptor());
            return;
        }
        Type element = type.getSort() == Type.ARRAY ? type.getElementType() : type;
        if (element.getSort() == Type.FLOAT || element.getSort() == Type.DOUBLE) {
            refuse(owner, method, method.instructions.getFirst(), "float or double in a descriptor", Instead.FLOAT);
        } else if (element.getSort() == Type.OBJECT) {
            name(owner, method, method.instructions.getFirst(), element.getInternalName());
        }
    }

    private boolean name(LoadedClass owner, MethodNode method, AbstractInsnNode at, String name) {
        if (reach.name(name)) {
            return true;
        }
        refuse(owner, method, at, "class " + name + " isn't on the class path", Instead.MISSING_CLASS);
        return false;
    }

    private void missing(LoadedClass owner, MethodNode method, AbstractInsnNode at, String of, String member, String descriptor) {
        boolean isOfString = of.equals(CoreClasses.STRING) || descriptor.contains("L" + CoreClasses.STRING + ";");
        if (!program.isText && isOfString) {
            throw new TextNeeded();
        }
        String shown = member.equals(".toText") ? ".toString" : member;
        String lacking = Platform.declaring(program, of, member.substring(1), descriptor);
        String instead = Instead.of(lacking, shown);
        if (at.getOpcode() == Opcodes.INVOKEVIRTUAL && isNeverMade(lacking)) {
            declareHead(program.find(lacking), member.substring(1), descriptor);
            program.report.refuseWithOthers(placeOf(owner, method, at), formOf(owner, lacking + shown), instead);
        } else {
            refuse(owner, method, at, lacking + shown, instead);
        }
    }

    /** Whether no object is of a class or below it, but by what is refused: a class of the platform, whose constructors nobody can call. */
    private boolean isNeverMade(String name) {
        LoadedClass found = program.find(name);
        return found != null && found.origin == Origin.PLATFORM && !found.isInterface() && !program.isBelow(found, CoreClasses.THROWABLE);
    }

    /** Lets a class have a method that is named and never run. */
    private void declareHead(LoadedClass of, String name, String descriptor) {
        if (of.method(name, descriptor) == null) {
            of.add(new MethodNode(Opcodes.ACC_PUBLIC, name, descriptor, null, null));
        }
        reach.declare(of, of.method(name, descriptor));
    }

    private void refuse(LoadedClass owner, MethodNode method, AbstractInsnNode at, String form, String instead) {
        program.report.refuse(placeOf(owner, method, at), formOf(owner, form), instead);
    }

    private boolean isOwn(LoadedClass owner) {
        return owner.origin == Origin.PROGRAM || reach.place() == null;
    }

    private Place placeOf(LoadedClass owner, MethodNode method, AbstractInsnNode at) {
        return isOwn(owner) ? Place.of(owner.node, method, at) : reach.place();
    }

    private String formOf(LoadedClass owner, String form) {
        return isOwn(owner) ? form : form + " (of " + owner.name() + ")";
    }
}
