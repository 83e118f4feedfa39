package java.util.logging;

/** Takes messages, and tells nobody: a virtual machine writes them to standard error, which isn't here. */
public class Logger {
    private final String name;
    private Level level = Level.INFO;

    protected Logger(String name) {
        this.name = name;
    }

    /** A new logger. */
    public static Logger getLogger(String name) {
        return new Logger(name);
    }

    public String getName() {
        return name;
    }

    public void setLevel(Level other) {
        level = other;
    }

    public boolean isLoggable(Level other) {
        return other.intValue() >= level.intValue() && level.intValue() != Level.OFF.intValue();
    }

    public void log(Level each, String message) {
    }

    public void log(Level each, String message, Object of) {
    }

    public void log(Level each, String message, Throwable raised) {
    }

    public void severe(String message) {
    }

    public void warning(String message) {
    }

    public void info(String message) {
    }

    public void config(String message) {
    }

    public void fine(String message) {
    }

    public void finer(String message) {
    }

    public void finest(String message) {
    }
}
