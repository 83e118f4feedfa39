"""What `jop link` refuses, told with the line of the source and what to do. Not proved: a tool."""
import re

from rechecker.class_files import class_name, instructions
from rechecker.names import written

from . import notes
from .lines import line_at, source_file
from .words import nearest

PARTS = re.compile(r"(file|method|field|pc|entry|why|name|item|major|rule|count|limit)=((?:(?! [a-z]+=).)*)")
ADAPT = "tools/adapt replaces it"
FIXED = "write int in fixed point"
# What isn't supported, in the words of Java, what to do, and what of the line is meant.
ITEMS = [
    (r"lmul", "long multiplication", ADAPT, r"(?<!/)\*(?!/)"),
    (r"ldiv", "long division", ADAPT, r"(?<![/*])/(?![/*])"),
    (r"lrem", "long remainder", ADAPT, r"%"),
    (r"ldc class", "class literal, as `enum` and `assert` have it", ADAPT, r"[\w.]+\.class\b|\bassert\b|\benum\b"),
    (r"invokedynamic", "lambda, method reference or string +", ADAPT, r"->|::|\+"),
    (r"multianewarray", "array of arrays made at once", ADAPT, r"\bnew\b"),
    (r"interface code", "method of an interface with code", ADAPT, None),
    (r"native", "native method", "write a method with code; `jop.Io` is the only way out", r"\bnative\b"),
    (r"descriptor (F|D)|.*(float|double)|[fd]([acdmnrs][a-z]+.*|load.*|return)|[ilfd]2[fd]|[fd]2[il]", "float or double", FIXED, r"\b(float|double)\b"),
]
MAIN = b"main", b"([Ljava/lang/String;)V"
VERSIONS = 44  # the major version of a class file, less that of its Java


def tell(study, files, said):
    """tells why the class files of a study aren't linked"""
    kind = said.partition("link: ")[2].partition(" file=")[0]
    parts = dict(PARTS.findall(said))
    file = files[int(parts["file"])] if "file" in parts and int(parts["file"]) < len(files) else None
    if said == "link: no main":
        tell_main(study, files)
    elif file is None:
        study.told.error("link", said)
    elif kind == "unsupported version":
        cure = "compile it by javac --release 8, or hand it to tools/adapt"
        study.told.error("link", f"class file of Java {int(parts['major']) - VERSIONS}", file.place, cure=cure)
    else:
        text, cure, near = words_of(kind, parts, said, files)
        Told(study, file).tell(parts, text, cure, near)


def words_of(kind, parts, said, files):
    """what is refused, what to do, and what of the line is meant"""
    if kind == "unsupported":
        found = next((each for each in ITEMS if re.fullmatch(each[0], parts["item"])), None)
        return found[1:] if found else (f"unsupported: {parts['item']}", "docs/java.md has what to write instead", None)
    if kind == "unresolved":
        return *unresolved(parts, {each.name for each in files}), named_word(parts.get("name", ""))
    if kind == "duplicate":
        return f"a second class {parts['name']}", "hand in one of them", None
    return said, "docs/refusals.md has what it means", None


def named_word(name):
    """the word by which a source names a class or a member"""
    word = name.partition("(")[0].rpartition(".")[2].rpartition("/")[2].rpartition("$")[2].strip("[;")
    return rf"\b{re.escape(word)}\b" if word and word != "<init>" else r"\bnew\b"


def unresolved(parts, names):
    """what is named and isn't there"""
    name, why = parts.get("name", "?"), parts["why"]
    owner = name.partition("(")[0].rpartition(".")[0] if "(" in name else name
    what = {"NoClass": "class", "NoMethod": "method", "NoField": "field"}.get(why)
    text = f"{what} {name} isn't there" if what else f"{name}: {why}"
    if owner.lstrip("[L").startswith(("java/", "javax/")):
        return text, "tools/adapt replaces what the machine's own classes lack"
    if why == "NoClass":
        return text, f"hand in its class file{nearest(name, names)}"
    return text, "compile the classes anew, together"


def tell_main(study, files):
    """tells of a main class that isn't there, or has no main"""
    wanted = study.asked.main.replace(".", "/")
    mains = [each.name for each in files if each.read and any((m["name"], m["descriptor"]) == MAIN for m in each.read.methods)]
    names = [each.name for each in files]
    if wanted in names:
        text = f"--main {wanted}: the class has no public static void main(String[])"
    else:
        text = f"--main {wanted}: no class of this name is handed in{nearest(wanted, mains or names)}"
    some = ", ".join([*mains[:5], *([".."] if mains[5:] else [])])
    study.told.error("main", text, cure=f"main is that of {some}" if mains else "none of the classes has one")


class Told:
    """a class file of which something is refused, with its source where that is at hand"""

    def __init__(self, study, file):
        self.study, self.file, self.read = study, file, file.read

    def tell(self, parts, text, cure, near):
        method, place = self.place(parts)
        line = None if method is None or place is None or "code" not in method else line_at(method, self.read, place)
        name = f" ({written(method['name'] + method['descriptor'])})" if method else ""
        source = self.source() if line is not None else None
        if source is None:
            where = f"{name[:-1]}, line {line})" if line is not None else name
            self.study.told.error("link", f"{text}{where}", self.file.place, cure=cure)
        else:
            self.study.told.error("link", f"{text}{name}", source, line, near, cure)

    def place(self, parts):
        """the method, and the place in its code, that are told; or those of the first instruction that names an entry"""
        if self.read is None:
            return None, None
        if "method" in parts and int(parts["method"]) < len(self.read.methods):
            return self.read.methods[int(parts["method"])], int(parts.get("pc", 0))
        for method in self.read.methods if "entry" in parts else ():
            for at, _, index in instructions(method["code"]["code"]) if "code" in method else ():
                if index and int(parts["entry"]) in (index, *self.classes_of(index, parts.get("name"))):
                    return method, at
        return None, None

    def classes_of(self, index, name):
        """the entry of the class that a member's entry names"""
        entry = self.read.pool[index]
        member = entry is not None and entry[0] in (9, 10, 11)
        return [entry[1]] if member and written(class_name(self.read, entry[1])) == name else []

    def source(self):
        """the place of a copy of the source, none where it isn't at hand"""
        return notes.kept_source(self.study, source_file(self.read))
