// For javac alone: the linker brings this class (docs/java.md).
package java.lang;

public abstract class VirtualMachineError extends Error {
    public VirtualMachineError() {
    }

    public VirtualMachineError(String message) {
        super(message);
    }
}
