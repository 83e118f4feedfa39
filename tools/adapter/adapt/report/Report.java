package adapt.report;

import java.util.ArrayList;
import java.util.LinkedHashMap;
import java.util.LinkedHashSet;
import java.util.List;
import java.util.Map;
import java.util.Set;

/** What was replaced, cut and refused, and what else the reader should know. */
public final class Report {
    private final Set<String> replaced = new LinkedHashSet<>();
    /** The lines of what is refused, and whether each is so by itself. */
    private final Map<String, Boolean> refused = new LinkedHashMap<>();
    private final Set<String> notes = new LinkedHashSet<>();
    private final List<String> marks = new ArrayList<>();
    private final List<String> cut = new ArrayList<>();

    /** A form was replaced by another one. */
    public void replace(Place place, String form, String by) {
        replaced.add("replaced " + place + ": " + form + " by " + by);
    }

    /** A form can't be adapted. */
    public void refuse(Place place, String form, String instead) {
        marks.add(form);
        refused.put(line(place, form, instead), true);
    }

    /** A form is never run, unless something else can be that is refused: it is refused where something else is. */
    public void refuseWithOthers(Place place, String form, String instead) {
        refused.putIfAbsent(line(place, form, instead), false);
    }

    private static String line(Place place, String form, String instead) {
        return place.told(form) + "; write " + instead;
    }

    /** A class or members of it were left out. */
    public void cut(String line) {
        cut.add("cut " + line);
    }

    /** Something that isn't refused, and that may make a difference. */
    public void note(String line) {
        notes.add("note " + line);
    }

    /** The lines of what is refused. */
    public List<String> refusals() {
        return refused.containsValue(true) ? List.copyOf(refused.keySet()) : List.of();
    }

    /** What was refused by itself, each time it was. */
    public List<String> marks() {
        return marks;
    }

    /** The lines of notes. */
    public List<String> notes() {
        return List.copyOf(notes);
    }

    /** The lines of what was replaced and cut. */
    public List<String> changes() {
        List<String> lines = new ArrayList<>(replaced);
        lines.addAll(cut);
        return lines;
    }
}
