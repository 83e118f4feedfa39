package adapt.classes;

/** A method or a field: the class that has it, its name and its descriptor. */
public record Member(String owner, String name, String descriptor) {
    /** As `java/util/List.size()I`. */
    @Override
    public String toString() {
        return owner + "." + name + (descriptor.startsWith("(") ? "" : " ") + descriptor;
    }
}
