"""The class files that are linked: found in folders and jar files, in an order for `link`. Not proved: a tool."""
import hashlib
import os
import re
import struct
import zipfile

from rechecker.class_files import read_class
from rechecker.core_classes import core_classes
from rechecker.names import written

from . import initialisers

CORE = {c.name for c in core_classes()}
MAGIC = b"\xca\xfe\xba\xbe"
# Names that may be those of files.
PLAIN = re.compile(r"[\w$-]+(/[\w$-]+)*")


class ClassFile:
    """the bytes of a class file, the path by which it was handed in, and its copy in the folder of the record"""

    def __init__(self, path, data, kept):
        self.path, self.data, self.is_linked = path, data, True
        self.read = read(data)
        self.name = written(self.read.name) if self.read else os.path.basename(path)
        self.place = kept.keep("classes", file_name(self.name), path, data)

    def record(self):
        return {"name": self.name, "path": self.place, "sha256": digest(self.data), "linked": self.is_linked}


def file_name(name):
    """the name of the file of a class, of its name"""
    return (name if PLAIN.fullmatch(name) else re.sub(r"[^\w$-]", "_", name)) + ".class"


def digest(data):
    return hashlib.sha256(data).hexdigest()


def read(data):
    """what a class file says, none where it can't be read: `link` says why"""
    try:
        return read_class(data)
    except (LookupError, ValueError, TypeError, AssertionError, struct.error):
        return None


def is_wanted(name):
    """whether a file of a folder or a jar is a class of the program"""
    base = os.path.basename(name)
    return base.endswith(".class") and base not in ("module-info.class", "package-info.class") and not name.startswith("META-INF/")


def in_folder(top, kept):
    paths = [os.path.join(at, name) for at, _, names in os.walk(top) for name in names]
    for path in sorted(path for path in paths if is_wanted(os.path.relpath(path, top))):
        with open(path, "rb") as file:
            yield ClassFile(path, file.read(), kept)


def in_jar(path, kept):
    """the classes of a jar file"""
    with zipfile.ZipFile(path) as jar:
        for name in sorted(filter(is_wanted, jar.namelist())):
            yield ClassFile(f"{path}!{name}", jar.read(name), kept)


def found(operands, kept):
    """the class files of the operands, in their order"""
    for path in operands:
        if os.path.isdir(path):
            yield from in_folder(path, kept)
            continue
        with open(path, "rb") as file:
            data = file.read()
        if data[:4] != MAGIC and zipfile.is_zipfile(path):
            yield from in_jar(path, kept)
        else:
            yield ClassFile(path, data, kept)


def collected(operands, kept):
    """the class files in an order for `link`, then those that the machine has itself; and what is to be told of them: rule, text, place"""
    every, told = list(found(operands, kept)), []
    for each in every:
        if each.read and each.read.name in CORE:
            each.is_linked = False
            told.append(("own-class", f"the machine has {each.name} itself, so this one is left out", each.place))
    files, others = ([each for each in every if each.is_linked is linked] for linked in (True, False))
    if not all(each.read for each in files) or len({each.name for each in files}) < len(files):
        return files + others, told
    places, rings = initialisers.order([each.read for each in files])
    for ring in rings:
        told.append(("initialisers", f"the initialisers of {', '.join(map(written, ring))} use one another: they run in the order in which they are named", None))
    return [*(files[place] for place in places), *others], told
