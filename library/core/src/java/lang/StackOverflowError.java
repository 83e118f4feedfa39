// For javac alone: the linker brings this class (docs/java.md).
package java.lang;

public class StackOverflowError extends VirtualMachineError {
    public StackOverflowError() {
    }

    public StackOverflowError(String message) {
        super(message);
    }
}
