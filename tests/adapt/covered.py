"""Which public methods of the library no program of tests/adapt runs, of its adapted class files."""
import os
import sys
import zipfile

HERE = os.path.dirname(os.path.realpath(__file__))
TOP = os.path.dirname(os.path.dirname(HERE))
sys.path.insert(0, os.path.join(TOP, "tests", "harness"))

import class_files  # noqa: E402

PUBLIC, STATIC, ABSTRACT, SYNTHETIC = 1, 8, 0x400, 0x1000
# What stands in place of the code of a method that is named and never run: aconst_null, athrow.
NEVER_RUN = b"\x01\xbf"
# Classes that no program names: what they have is called in place of something else, or by code of the library alone.
INNER = ("jop/",)


def methods(data):
    """the class's name, its flags, and of each method with code its name and descriptor, its flags and its code"""
    reader = class_files.Reader(data)
    texts, classes = reader.pool()
    flags, this = reader.number(2), texts[classes[reader.number(2)]]
    reader.skip(2)
    reader.skip(2 * reader.number(2))
    reader.members(texts)
    found = []
    for _ in range(reader.number(2)):
        access, name = reader.number(2), texts[reader.number(2)] + texts[reader.number(2)]
        for _ in range(reader.number(2)):
            attribute, size = texts[reader.number(2)], reader.number(4)
            if attribute == "Code":
                length = int.from_bytes(data[reader.at + 4:reader.at + 8], "big")
                found.append((name, access, data[reader.at + 8:reader.at + 8 + length]))
            reader.skip(size)
    return this, flags, found


def as_text(owner, name):
    """a method as the programs name it, whose strings are texts"""
    return f"{owner}.{name}".replace("Ljava/lang/String;", "Ljop/Text;").replace("java/lang/StringBuffer", "java/lang/StringBuilder")


def offered():
    """the public methods with code of the public classes of the library"""
    found = set()
    for at, _, names in os.walk(f"{TOP}/library/classes"):
        for name in names:
            with open(os.path.join(at, name), "rb") as file:
                owner, flags, own = methods(file.read())
            if flags & PUBLIC and not owner.startswith(INNER):
                found |= {as_text(owner, method) for method, access, _ in own if access & PUBLIC and not access & SYNTHETIC}
    return found


def run():
    """the methods that the programs run"""
    found = set()
    for name in os.listdir(f"{HERE}/adapted"):
        with zipfile.ZipFile(f"{HERE}/adapted/{name}") as packed:
            for file in packed.namelist():
                if file.endswith(".class"):
                    owner, _, own = methods(packed.read(file))
                    found |= {as_text(owner, method) for method, _, code in own if code != NEVER_RUN}
    return found


def missing():
    """the public methods that no program runs, in their order"""
    return sorted(offered() - run())


if __name__ == "__main__":
    print("".join(line + "\n" for line in missing()), end="")
