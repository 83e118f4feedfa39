import java.io.File;
import java.security.Principal;
import java.util.Scanner;
import java.util.concurrent.Executor;
import java.util.function.ObjIntConsumer;
import java.util.function.ToLongFunction;
import org.xml.sax.Locator;

/** Interfaces of the standard library that the program's own classes implement, and what classes say of objects. */
public class Standard {
    static class Place implements Locator {
        private final String name;
        private final int line;

        Place(String name, int line) {
            this.name = name;
            this.line = line;
        }

        @Override
        public String getPublicId() {
            return null;
        }

        @Override
        public String getSystemId() {
            return name + ".xml";
        }

        @Override
        public int getLineNumber() {
            return line;
        }

        @Override
        public int getColumnNumber() {
            return -1;
        }
    }

    static final class FarPlace extends Place {
        FarPlace() {
            super("far", 1000);
        }

        @Override
        public int getColumnNumber() {
            return 7;
        }
    }

    static class Person implements Principal {
        @Override
        public String getName() {
            return "Ann";
        }

        @Override
        public String toString() {
            return "person " + getName();
        }
    }

    static final class Same implements Principal {
        @Override
        public String getName() {
            return "same";
        }

        @Override
        public boolean equals(Object other) {
            return other instanceof Same;
        }

        @Override
        public int hashCode() {
            return 12;
        }
    }

    static final class Twice implements Executor {
        @Override
        public void execute(Runnable task) {
            task.run();
            task.run();
        }
    }

    private static int runs;
    private static File kept;

    /** No object of these classes is ever made, so nothing of theirs is called. */
    private static String never(File file, Scanner in, Object any) {
        if (file != null) {
            return file.getName() + file.length();
        }
        if (any instanceof Scanner) {
            return "scanner" + ((Scanner) any).nextInt();
        }
        try {
            return "read" + in.nextLine();
        } catch (NullPointerException raised) {
            return "none";
        }
    }

    private static String told(Locator at) {
        return at.getSystemId() + ":" + at.getLineNumber() + ":" + at.getColumnNumber() + at.getPublicId();
    }

    private static String told(Principal one, Principal other) {
        return one.getName() + one.equals(other) + other.equals(one) + (one.hashCode() == one.hashCode());
    }

    private static <T> String instance(Class<T> of, Object value) {
        String told = of.getName() + of.isInstance(value);
        try {
            return told + (of.cast(value) == value);
        } catch (ClassCastException raised) {
            return told + " can't be cast";
        }
    }

    public static void main(String[] arguments) {
        System.out.println(told(new Place("near", 5)) + " " + told(new FarPlace()));
        System.out.println(told(new Person(), new Same()) + " " + told(new Same(), new Same()) + " " + new Person() + new Same().hashCode());
        Executor twice = new Twice();
        twice.execute(() -> runs++);
        Executor once = Runnable::run;
        once.execute(() -> runs += 10);
        ToLongFunction<String> length = text -> text.length() + (1L << 40);
        ObjIntConsumer<String> print = (text, count) -> System.out.print(text + count + ";");
        print.accept("runs", runs);
        System.out.println(length.applyAsLong("four" + runs));
        System.out.println(never(kept, null, "any") + never(null, null, 5));
        Object[] values = {new Place("p", 1), new FarPlace(), new Person(), "text", null, new int[2], 4};
        for (Object value : values) {
            System.out.println(instance(Place.class, value) + instance(Locator.class, value) + instance(Object.class, value) + instance(int[].class, value)
                + instance(String.class, value));
        }
    }
}
