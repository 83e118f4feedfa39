package adapt.write;

import java.util.ArrayList;
import java.util.HashMap;
import java.util.List;
import java.util.Map;
import java.util.TreeSet;
import org.objectweb.asm.ClassReader;
import org.objectweb.asm.ClassVisitor;
import org.objectweb.asm.Label;
import org.objectweb.asm.MethodVisitor;
import org.objectweb.asm.Opcodes;

/** At which places of their code the methods of a class file have heads of loops: where a jump goes back to. */
final class LoopHeaders {
    private final Map<Label, Integer> places = new HashMap<>();
    private final Map<String, List<Integer>> found = new HashMap<>();

    private LoopHeaders() {
    }

    /** The places by the methods' names and descriptors. */
    static Map<String, List<Integer>> read(byte[] bytes) {
        LoopHeaders headers = new LoopHeaders();
        ClassReader reader = new ClassReader(bytes) {
            @Override
            protected Label readLabel(int place, Label[] labels) {
                Label label = super.readLabel(place, labels);
                headers.places.put(label, place);
                return label;
            }
        };
        reader.accept(headers.visitor(), ClassReader.SKIP_FRAMES);
        return headers.found;
    }

    private ClassVisitor visitor() {
        return new ClassVisitor(Opcodes.ASM9) {
            @Override
            public MethodVisitor visitMethod(int access, String name, String descriptor, String signature, String[] exceptions) {
                return methodVisitor(name + descriptor);
            }
        };
    }

    private MethodVisitor methodVisitor(String method) {
        TreeSet<Integer> headers = new TreeSet<>();
        TreeSet<Integer> seen = new TreeSet<>();
        return new MethodVisitor(Opcodes.ASM9) {
            @Override
            public void visitLabel(Label label) {
                seen.add(places.get(label));
            }

            @Override
            public void visitJumpInsn(int opcode, Label label) {
                if (seen.contains(places.get(label))) {
                    headers.add(places.get(label));
                }
            }

            @Override
            public void visitEnd() {
                found.put(method, new ArrayList<>(headers));
            }
        };
    }
}
