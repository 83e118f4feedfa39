"""Names of methods as a page shows them: `State.valueOf(Text)`, with the name in a class file where one rests. Not proved: a tool."""
import re
from collections import Counter

from markupsafe import Markup

FULL = re.compile(r"(?P<owner>[^ ]+)\.(?P<name>[^ .(]+)\((?P<takes>[^ )]*)\)(?P<gives>[^ ]+)")
# JVM Specification SE 8, 4.3.2.
TYPE = re.compile(r"(\[*)(?:([BCDFIJSZV])|L([^;]+);)")
BASIC = {"B": "byte", "C": "char", "D": "double", "F": "float", "I": "int", "J": "long", "S": "short", "Z": "boolean", "V": "void"}


def types(descriptor, is_whole):
    """the types of a descriptor as a source has them, with their packages or without"""
    for depth, basic, name in TYPE.findall(descriptor):
        yield (BASIC[basic] if basic else class_name(name, is_whole)) + "[]" * len(depth)


def class_name(name, is_whole):
    return name.replace("/", ".") if is_whole else name.rpartition("/")[2]


def shown(full, is_whole=False, gives=False):
    """the name of a method as a source has it; what isn't the name of one stays as it is"""
    found = FULL.fullmatch(full)
    if not found:
        return full
    owner = class_name(found["owner"], is_whole)
    if found["name"] == "<clinit>":
        return f"{owner}.static {{}}"
    head = owner if found["name"] == "<init>" else f"{owner}.{found['name']}"
    return f"{head}({', '.join(types(found['takes'], is_whole))})" + (f": {next(types(found['gives'], is_whole), '')}" if gives else "")


class Titles:
    """the shortest forms of some names that tell them apart"""

    def __init__(self, names):
        self.found, left = {}, list(names)
        for form in (shown, lambda name: shown(name, True), lambda name: shown(name, True, True), lambda name: name):
            count = Counter(map(form, left))
            self.found |= {name: form(name) for name in left if count[form(name)] == 1}
            left = [name for name in left if name not in self.found]

    def __call__(self, name):
        """the form of a name, which breaks behind its separators alone; the name itself in its title"""
        head, space, rest = name.partition(" ")
        text = Markup("<wbr>").join(re.split(r"(?<=[/.;(,$])|(?=\()", self.found.get(head, head) + space + rest))
        return Markup('<span title="{}">{}</span>').format(name, text)
