package jop;

/**
 * A regular expression of a few kinds: chars, `.`, `\s \d \w` and their opposites, escaped chars and sets as `[^a-z_]`, each with `?`, `*` or `+` or
 * without, of chars below 256. What may be there any number of times takes all it can; so what stands behind it must be none of its chars. For
 * others UnsupportedOperationException is raised, also where no char at all would fit.
 */
final class Patterns {
    /** Which chars fit each item; the last place stands for all chars past 255. */
    private final boolean[][] sets;
    private final int[] least;
    private final boolean[] isMany;
    private final char[] pattern;
    private int place;
    private int count;

    Patterns(char[] pattern) {
        this.pattern = pattern;
        sets = new boolean[pattern.length][];
        least = new int[pattern.length];
        isMany = new boolean[pattern.length];
        while (place < pattern.length) { //@WCA loop=64 elements
            item();
        }
        check();
    }

    private static UnsupportedOperationException unknown() {
        return new UnsupportedOperationException();
    }

    private char next() {
        if (place >= pattern.length) {
            throw unknown();
        }
        place++;
        return pattern[place - 1];
    }

    private void item() {
        char each = next();
        boolean[] set = new boolean[257];
        if (each == '[') {
            set = set();
        } else if (each == '\\') {
            addEscaped(set, next());
        } else if (each == '.') {
            invert(set);
            set['\n'] = false;
            set['\r'] = false;
            set[0x85] = false;
            set[256] = false;
        } else if (isSpecial(each)) {
            throw unknown();
        } else {
            add(set, each);
        }
        sets[count] = set;
        quantify();
        count++;
    }

    private static boolean isSpecial(char each) {
        return each == '(' || each == ')' || each == '{' || each == '|' || each == '^' || each == '$' || each == '?' || each == '*' || each == '+';
    }

    private void quantify() {
        least[count] = 1;
        char each = place < pattern.length ? pattern[place] : 0;
        if (each == '?' || each == '*' || each == '+') {
            place++;
            least[count] = each == '+' ? 1 : 0;
            isMany[count] = each != '?';
            char more = place < pattern.length ? pattern[place] : 0;
            if (more == '?' || more == '+' || more == '*') {
                throw unknown();
            }
        }
        if (place < pattern.length && pattern[place] == '{') {
            throw unknown();
        }
    }

    private static void add(boolean[] set, char each) {
        if (each > 255) {
            throw unknown();
        }
        set[each] = true;
    }

    private static void addAll(boolean[] set, int first, int last) {
        for (int i = first; i <= last; i++) { //@WCA loop=257
            set[i] = true;
        }
    }

    private static void invert(boolean[] set) {
        for (int i = 0; i < 257; i++) { //@WCA loop=257
            set[i] = !set[i];
        }
    }

    private static void addEscaped(boolean[] set, char each) {
        boolean isOpposite = each == 'S' || each == 'D' || each == 'W';
        char kind = isOpposite ? (char) (each + 32) : each;
        boolean[] found = new boolean[257];
        if (kind == 's') {
            addAll(found, 9, 13);
            found[' '] = true;
        } else if (kind == 'd' || kind == 'w') {
            addAll(found, '0', '9');
        } else if (kind == 'n' || kind == 't' || kind == 'r') {
            found[kind == 'n' ? '\n' : kind == 't' ? '\t' : '\r'] = true;
        } else if (kind >= 'a' && kind <= 'z' || kind >= 'A' && kind <= 'Z' || kind >= '0' && kind <= '9') {
            throw unknown();
        } else {
            add(found, kind);
        }
        if (kind == 'w') {
            addAll(found, 'a', 'z');
            addAll(found, 'A', 'Z');
            found['_'] = true;
        }
        if (isOpposite) {
            invert(found);
        }
        unite(set, found);
    }

    private static void unite(boolean[] set, boolean[] other) {
        for (int i = 0; i < 257; i++) { //@WCA loop=257
            set[i] |= other[i];
        }
    }

    /** A set, behind its bracket. */
    private boolean[] set() {
        boolean[] set = new boolean[257];
        boolean isOpposite = place < pattern.length && pattern[place] == '^';
        place += isOpposite ? 1 : 0;
        char each = next();
        if (each == ']') {
            throw unknown();
        }
        while (each != ']') { //@WCA loop=64 elements
            addPart(set, each);
            each = next();
        }
        if (isOpposite) {
            invert(set);
        }
        return set;
    }

    private void addPart(boolean[] set, char each) {
        if (each == '[' || each == '&' || each == '^') {
            throw unknown();
        }
        boolean isEscaped = each == '\\';
        char first = isEscaped ? next() : each;
        boolean isRange = place + 1 < pattern.length && pattern[place] == '-' && pattern[place + 1] != ']';
        if (!isRange) {
            if (isEscaped) {
                addEscaped(set, first);
            } else {
                add(set, first);
            }
            return;
        }
        place++;
        char last = next();
        if (isEscaped || last == '\\' || last == '[' || last > 255 || first > last) {
            throw unknown();
        }
        addAll(set, first, last);
    }

    /** What may be there any number of times, or not at all, stands before none of its chars; some char fits. */
    private void check() {
        int sure = 0;
        for (int i = 0; i < count; i++) { //@WCA loop=64 elements
            sure += least[i];
            if (isMany[i] || least[i] == 0) {
                checkBehind(i);
            }
        }
        if (sure == 0) {
            throw unknown();
        }
    }

    private void checkBehind(int item) {
        boolean isOpen = true;
        for (int i = item + 1; i < count && isOpen; i++) { //@WCA loop=64 elements
            for (int k = 0; k < 257; k++) { //@WCA loop=257
                if (sets[item][k] && sets[i][k]) {
                    throw unknown();
                }
            }
            isOpen = least[i] == 0;
        }
    }

    /** The end of what fits from a place on; -1 where nothing does. */
    int end(char[] chars, int first) {
        int at = first;
        for (int i = 0; i < count; i++) { //@WCA loop=64 elements
            int end = taken(sets[i], chars, at, isMany[i] ? chars.length : at + 1);
            if (end - at < least[i]) {
                return -1;
            }
            at = end;
        }
        return at;
    }

    private static int taken(boolean[] set, char[] chars, int first, int limit) {
        int at = first;
        while (at < limit && at < chars.length && set[chars[at] > 255 ? 256 : chars[at]]) { //@WCA loop=64 elements
            at++;
        }
        return at;
    }

    /** At most so many times in place of what fits. */
    Text replace(char[] chars, char[] by, int times) {
        StringBuilder made = new StringBuilder();
        int left = times;
        int at = 0;
        while (at < chars.length) { //@WCA loop=64 elements
            int end = left == 0 ? -1 : end(chars, at);
            if (end < 0) {
                made.append(chars[at]);
                at++;
            } else {
                append(made, by);
                left--;
                at = end;
            }
        }
        return made.toText();
    }

    private static void append(StringBuilder made, char[] by) {
        boolean isEscaped = false;
        for (int i = 0; i < by.length; i++) { //@WCA loop=64 elements
            if (by[i] == '$' && !isEscaped) {
                throw unknown();
            }
            if (by[i] == '\\' && !isEscaped) {
                isEscaped = true;
            } else {
                made.append(by[i]);
                isEscaped = false;
            }
        }
        if (isEscaped) {
            throw new IllegalArgumentException();
        }
    }

    /** The parts of a text between what fits. */
    Text[] split(Text whole, char[] chars, int limit) {
        Text[] parts = new Text[chars.length + 1];
        int made = 0;
        int first = 0;
        int at = 0;
        while (at < chars.length) { //@WCA loop=64 elements
            int end = limit > 0 && made == limit - 1 ? -1 : end(chars, at);
            if (end >= 0) {
                parts[made] = new Text(chars, first, at - first);
                made++;
                first = end;
                at = end;
            } else {
                at++;
            }
        }
        parts[made] = made == 0 ? whole : new Text(chars, first, chars.length - first);
        made++;
        return copied(parts, limit == 0 && made > 1 ? filled(parts, made) : made);
    }

    /** How many there are up to the last one that isn't empty. */
    private static int filled(Text[] parts, int made) {
        int count = made;
        while (count > 0 && parts[count - 1].length() == 0) { //@WCA loop=64 elements
            count--;
        }
        return count;
    }

    private static Text[] copied(Text[] parts, int count) {
        Text[] all = new Text[count];
        Copies.copy(parts, 0, all, 0, count);
        return all;
    }
}
