import java.io.IOException;
import java.io.Reader;
import java.io.StringReader;
import java.io.StringWriter;
import java.io.Writer;
import java.security.AccessController;
import java.security.Permission;
import java.security.PrivilegedAction;
import java.security.Security;
import java.util.concurrent.atomic.AtomicBoolean;
import java.util.concurrent.atomic.AtomicInteger;
import java.util.concurrent.atomic.AtomicLong;
import java.util.concurrent.atomic.AtomicReference;
import java.util.logging.Level;
import java.util.logging.Logger;

/** Atomic variables, variables of a thread, readers and writers, and what has nothing to do where there is one thread and no rights. */
public class Cells {
    static class Right extends Permission {
        private static final long serialVersionUID = 1;

        Right(String name) {
            super(name);
        }

        @Override
        public boolean implies(Permission other) {
            return getName().equals(other.getName());
        }

        @Override
        public boolean equals(Object other) {
            return other instanceof Right && implies((Right) other);
        }

        @Override
        public int hashCode() {
            return getName().hashCode();
        }

        @Override
        public String getActions() {
            return "";
        }
    }

    static class Digits extends Reader {
        private int left = 5;

        @Override
        public int read(char[] to, int first, int count) {
            if (left == 0) {
                return -1;
            }
            to[first] = (char) ('0' + left);
            left--;
            return 1;
        }

        @Override
        public void close() {
            left = 0;
        }
    }

    static class Upper extends Writer {
        private final StringBuilder kept = new StringBuilder();

        @Override
        public void write(char[] from, int first, int count) {
            for (int k = first; k < first + count; k++) {
                kept.append(Character.toUpperCase(from[k]));
            }
        }

        @Override
        public void flush() {
            kept.append('|');
        }

        @Override
        public void close() {
            kept.append('.');
        }
    }

    private static void numbers() {
        AtomicInteger it = new AtomicInteger(5);
        System.out.println(it.getAndIncrement() + " " + it.getAndDecrement() + it.incrementAndGet() + it.decrementAndGet() + it.addAndGet(3) + it.getAndAdd(4));
        System.out.println(it.compareAndSet(12, 7) + " " + it.compareAndSet(12, 8) + it + it.getAndSet(9) + it.updateAndGet(each -> each * 2));
        System.out.println(it.getAndUpdate(each -> each + 1) + " " + it.accumulateAndGet(5, (one, two) -> one - two) + it.intValue() + it.longValue());
        it.set(3);
        it.lazySet(it.get() + 1);
        System.out.println(it.get() + " " + new AtomicInteger());
        AtomicLong big = new AtomicLong(5L << 40);
        System.out.println(big.getAndIncrement() + " " + big.getAndDecrement() + big.incrementAndGet() + big.decrementAndGet() + big.addAndGet(3) + big.getAndAdd(4));
        System.out.println(big.compareAndSet(12, 7) + " " + big.compareAndSet((5L << 40) + 7, 8) + big + big.getAndSet(9) + big.updateAndGet(each -> each * 2));
        System.out.println(big.getAndUpdate(each -> each + 1) + " " + big.accumulateAndGet(5, (one, two) -> one - two) + big.intValue() + big.longValue());
        big.set(3);
        big.lazySet(big.get() + 1);
        System.out.println(big.get() + " " + new AtomicLong());
    }

    private static void others() {
        AtomicBoolean flag = new AtomicBoolean(true);
        System.out.println(flag.getAndSet(false) + " " + flag.compareAndSet(false, true) + flag.compareAndSet(false, true) + flag + flag.get() + new AtomicBoolean());
        flag.set(false);
        AtomicReference<String> name = new AtomicReference<>("a");
        System.out.println(name.getAndSet("b") + name.get() + name + name.updateAndGet(each -> each + "!") + name.getAndUpdate(each -> each + "?") + flag);
        System.out.println(name.accumulateAndGet("x", (one, two) -> two + one) + name.compareAndSet("none", "q") + new AtomicReference<String>());
        String held = name.get();
        System.out.println(name.compareAndSet(held, null) + " " + name);
        name.set("c");
        name.lazySet(name.get() + "d");
        ThreadLocal<String> own = new ThreadLocal<String>() {
            @Override
            protected String initialValue() {
                return "first";
            }
        };
        System.out.println(own.get() + name);
        own.set("second");
        System.out.print(own.get());
        own.remove();
        System.out.println(own.get() + new ThreadLocal<String>().get());
    }

    private static void rights() {
        Right right = new Right("read");
        String done = AccessController.doPrivileged((PrivilegedAction<String>) () -> "done");
        System.out.println(done + right.getName() + right.equals(new Right("read")) + Security.getProperty("my.own"));
        Logger log = Logger.getLogger("own");
        log.setLevel(Level.WARNING);
        System.out.println(log.getName() + log.isLoggable(Level.INFO) + log.isLoggable(Level.SEVERE) + Level.FINE + Level.ALL.getName() + Level.OFF.intValue());
        log.log(Level.INFO, "a");
        log.log(Level.FINE, "a {0}", "b");
        log.log(Level.CONFIG, "a", new RuntimeException());
        log.setLevel(Level.OFF);
        log.severe("a");
        log.warning("a");
        log.info("a");
        log.config("a");
        log.fine("a");
        log.finer("a");
        log.finest("a");
    }

    private static void readers() throws IOException {
        Reader it = new StringReader("some text");
        char[] part = new char[4];
        System.out.print((char) it.read() + "" + it.read(part) + new String(part) + it.ready() + it.markSupported());
        it.mark(9);
        System.out.print(it.skip(2) + " " + it.read(part, 1, 3) + new String(part) + it.read() + it.read(part) + it.skip(1));
        it.reset();
        System.out.println(it.read() + " " + it.skip(-3) + (char) it.read() + it.read(part, 0, 0));
        it.close();
        try {
            it.read();
        } catch (IOException raised) {
            System.out.println(raised.getMessage());
        }
        Reader own = new Digits();
        System.out.println(own.read() + " " + own.skip(2) + own.ready() + own.markSupported() + own.read(part) + part[0]);
        try {
            own.mark(1);
        } catch (IOException raised) {
            System.out.println("no mark");
        }
        try {
            own.reset();
        } catch (IOException raised) {
            System.out.println("no mark");
        }
        own.close();
        System.out.println(own.read());
    }

    private static void writers() throws IOException {
        StringWriter it = new StringWriter();
        it.write('a');
        it.write("bc");
        it.write("defg", 1, 2);
        it.write(new char[] {'x', 'y'});
        it.write(new char[] {'x', 'y', 'z'}, 1, 2);
        it.append('-').append("more").append("0123", 1, 3).append((CharSequence) null);
        it.flush();
        it.close();
        System.out.println(it + " " + new StringWriter(3));
        Upper own = new Upper();
        own.write('a');
        own.write("bc");
        own.write("defg", 1, 2);
        own.write(new char[] {'x', 'y'});
        own.append('q').append("rs").append("tuvw", 1, 3);
        own.flush();
        own.close();
        System.out.println(own.kept);
        try {
            own.write("abc", 2, 2);
        } catch (IndexOutOfBoundsException raised) {
            System.out.println("outside");
        }
    }

    private static boolean isAbove(Class<?> above, Class<?> below) {
        return above.isAssignableFrom(below);
    }

    private static void classes() {
        Object[] all = {"text", new Right("r"), new Right[1], new int[1], 5, new Object[1], new Permission[1]};
        Class<?>[] above = {Object.class, CharSequence.class, Permission.class, Right.class, Number.class, Object[].class, Permission[].class, int[].class,
            Comparable.class, Cloneable.class};
        for (Object each : all) {
            for (Class<?> one : above) {
                System.out.print(isAbove(one, each.getClass()) ? "1" : "0");
            }
            System.out.println();
        }
    }

    public static void main(String[] arguments) throws IOException {
        numbers();
        others();
        rights();
        readers();
        writers();
        classes();
        try {
            throw new ArrayIndexOutOfBoundsException(5);
        } catch (IndexOutOfBoundsException raised) {
            System.out.println("index");
        }
    }
}
