package adapt.report;

import static java.util.Map.entry;

import java.util.Map;

/** What to write in place of what can't be adapted, in the words of docs/java.md. */
public final class Instead {
    public static final String FLOAT = "int in fixed point";
    public static final String NATIVE = "a method with code; `jop.Io` is the only way out";
    public static final String LITERAL = "a number that names the kind";
    public static final String DYNAMIC = "a class of one's own";
    public static final String MISSING_CLASS = "its folder or jar file on the class path";
    private static final String ONE_THREAD = "one thread; `synchronized` links and has nothing to wait for";
    private static final String FOR = "a `for` loop";
    private static final String CLOCK = "a count of the program's own; there is no clock";
    private static final Map<String, String> MEMBERS = Map.ofEntries(
            entry("java/lang/System.err", "`System.out`"), entry("java/lang/System.exit", "a return from `main`"),
            entry("java/lang/System.currentTimeMillis", CLOCK), entry("java/lang/System.nanoTime", CLOCK),
            entry("java/lang/Iterable.spliterator", FOR), entry("java/util/Collection.stream", FOR),
            entry("java/util/Random.nextDouble", "`nextInt`"), entry("java/util/Random.nextFloat", "`nextInt`"),
            entry("java/util/Random.nextGaussian", "`nextInt`"),
            entry("java/lang/Object.getClass", "`instanceof`, or a method that each class overrides"),
            entry("java/lang/Object.wait", ONE_THREAD), entry("java/lang/Object.notify", ONE_THREAD), entry("java/lang/Object.notifyAll", ONE_THREAD),
            entry("java/lang/Object.clone", "a constructor that copies"),
            entry("java/lang/Object.toString", "a `toString` of the class's own, without `super`"));
    /** By how names begin; the first that fits counts. */
    private static final String[][] CLASSES = {
        {"java/lang/Thread", ONE_THREAD}, {"java/util/concurrent/", ONE_THREAD},
        {"java/lang/Class", "`instanceof`, or a method that each class overrides"},
        {"java/lang/reflect", "calls by name of methods that are known when the program is compiled"},
        {"java/lang/Float", FLOAT}, {"java/lang/Double", FLOAT}, {"java/math/", "arrays of ints"},
        {"java/lang/Throwable", "a field of one's own exception; `getMessage()` adapts"},
        {"java/lang/String", "a loop over `charAt`"},
        {"java/util/LinkedHashMap", "`HashMap`"}, {"java/util/TreeMap", "`HashMap`, and `Arrays.sort` of its keys"},
        {"java/util/LinkedHashSet", "`HashSet`"}, {"java/util/TreeSet", "`HashSet`, and `Arrays.sort` of its elements"},
        {"java/util/stream/", FOR}, {"java/util/regex/", "a loop over `charAt`"},
        {"java/util/Scanner", "`System.in.read()`"}, {"java/io/BufferedReader", "`System.in.read()`"}, {"java/io/Reader", "`System.in.read()`"},
        {"java/io/File", "`System.in` and `System.out`"}, {"java/nio/file/", "`System.in` and `System.out`"},
    };

    private Instead() {
    }

    /** In place of a member of a class that nothing has. */
    public static String of(String owner, String member) {
        String word = MEMBERS.get(owner + member);
        if (word != null) {
            return word;
        }
        String method = MEMBERS.get("java/lang/Object" + member);
        if (method != null) {
            return method;
        }
        for (String[] each : CLASSES) {
            if (owner.startsWith(each[0])) {
                return each[1];
            }
        }
        return "an interface, a class or a static method of one's own";
    }
}
