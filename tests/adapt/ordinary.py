"""The programs of tests/adapt: their rows, how one that was adapted is linked and run, and which lines of its bounds are promises."""
import collections
import os
import re
import subprocess
import zipfile

HERE = os.path.dirname(os.path.realpath(__file__))
TOP = os.path.dirname(os.path.dirname(HERE))
MEMORY, CYCLES = {False: "1000000", True: "16777216"}, "1000000000"
# How names of programs that try the methods of the library begin, and what they read: one seeded value of each case behind its edges, and a line for each case.
LIBRARY, LIBRARY_INPUT = "Library", bytes([0, 1, 0, 255]) + b"in"


class Row:
    """a program: its name, the release for which it is compiled, options of tools/adapt, methods that `jop bound` bounds by the file `bounds` alone, with the
    least that their bound may be, and the numbers of loops in methods that were made"""

    def __init__(self, line):
        self.name, self.release, *words = line.split()
        self.main = self.name.removeprefix(LIBRARY)
        self.input = LIBRARY_INPUT if self.is_of_library() else b""
        self.bounded = [word.removeprefix("bound=").partition(">=")[::2] for word in words if word.startswith("bound=")]
        self.made = next((word.removeprefix("made=").split(",") for word in words if word.startswith("made=")), None)
        self.options = [word for word in words if not word.startswith(("bound=", "made="))]
        self.elements = int(self.options[self.options.index("--elements") + 1]) if "--elements" in self.options else 64

    def is_of_library(self):
        """whether it is a program of tests/library/cases.py"""
        return self.name.startswith(LIBRARY)

    def path(self, folder, end):
        """a file of the program"""
        return os.path.join(HERE, folder, self.name + end)

    def wanted(self):
        """what a Java virtual machine puts out of the program as it was before it was adapted"""
        with open(self.path("wanted", ""), "rb") as file:
            return file.read()


def rows(names):
    """the rows, or those of the names"""
    with open(os.path.join(HERE, "rows"), encoding="utf-8") as file:
        found = [Row(line) for line in file if line.strip() and not line.startswith("#")]
    return [row for row in found if not names or row.name in names]


def batch(calls, room, adapt):
    """calls of tools/adapt in one process: for each whether it ended well, and its lines"""
    path = os.path.join(room, "calls")
    with open(path, "w", encoding="utf-8") as file:
        file.write("".join("\t".join(words) + "\n" for words in calls))
    told = subprocess.run([*adapt, "--batch", path], capture_output=True, text=True, check=False)
    parts = re.split(r"^status (\d+)\n", told.stdout, flags=re.M)
    found = [(status == "0", lines) for lines, status in zip(parts[::2], parts[1::2])]
    return found + [(False, told.stderr[-600:])] * (len(calls) - len(found))


def compiled(calls, room):
    """calls of javac in one process: what is wrong with each, by its number"""
    path = os.path.join(room, "compiled")
    with open(path, "w", encoding="utf-8") as file:
        file.write("".join("\t".join(words) + "\n" for words in calls))
    compiler = os.path.join(TOP, "tests/expected/java/Compile.java")
    done = subprocess.run(["java", "-XX:TieredStopAtLevel=1", "-XX:+UseSerialGC", compiler, path], capture_output=True, text=True, check=True)
    return {int(number): text for number, _, text in (line.partition("\t") for line in done.stdout.splitlines())}


def unpacked(archive, folder):
    """lays the class files of an archive out, and gives their names in the order for the linker"""
    with zipfile.ZipFile(archive) as packed:
        packed.extractall(folder)
    with open(os.path.join(folder, "files"), encoding="utf-8") as file:
        return file.read().split()


def packed(folder, archive):
    """puts a folder that tools/adapt made into an archive, whose bytes tell nothing of the time"""
    with open(os.path.join(folder, "files"), encoding="utf-8") as file:
        names = ["files", "bounds", *file.read().split()]
    with zipfile.ZipFile(archive, "w", zipfile.ZIP_DEFLATED) as out:
        for name in names:
            with open(os.path.join(folder, name), "rb") as file:
                out.writestr(zipfile.ZipInfo(name, (2000, 1, 1, 0, 0, 0)), file.read(), zipfile.ZIP_DEFLATED, 9)


def fault_of(row, jop, folder, files):
    """what is wrong with a program that was adapted; None where it puts out what is wanted, and ends"""
    linked = subprocess.run([jop, "link", "--main", row.main, *files], cwd=folder, capture_output=True, check=False)
    if linked.returncode:
        return linked.stderr.decode().strip()
    image = os.path.join(folder, "image")
    with open(image, "wb") as file:
        file.write(linked.stdout)
    ran = subprocess.run([jop, "run", "--memory", MEMORY[row.is_of_library()], "--cycles", CYCLES, image], input=row.input, capture_output=True, check=False)
    ending = ran.stderr.decode().split(" cycles=")[0]
    if ending != "ended":
        return f"{ending} behind {ran.stdout[-60:]!r}"
    if ran.stdout != row.wanted():
        place = len(os.path.commonprefix([ran.stdout, row.wanted()]))
        return f"wanted {row.wanted()[place:place + 60]!r} at {place}, got {ran.stdout[place:place + 60]!r}"
    faults = [unbounded(method, least, jop, folder) for method, least in row.bounded]
    return next(filter(None, faults), None) or unpromised(row, folder)


def library_loops():
    """the loops of the library by their methods, in the order of their places: each a number, and the word that says on what it is a promise"""
    with open(os.path.join(TOP, "library", "bounds"), encoding="utf-8") as file:
        lines = file.read().splitlines()
    found = collections.defaultdict(list)
    for before, line in zip(lines, lines[1:]):
        if not line.startswith("#"):
            method, place, bound = line.split(" ")
            found[method].append((int(place), bound, before.split(" ")[2] if before.count(" ") == 2 else None))
    return {method: [(bound, word) for _, bound, word in sorted(loops)] for method, loops in found.items()}


def wanted_line(bound, word, elements):
    """what is wanted of a loop of the library: its number, and the promise in front of it"""
    if word is None:
        return bound, None
    of_maps = {"entries": elements, "cells": max(16, 2 << (elements - 1).bit_length()), "doublings": elements.bit_length() + 1}
    if word in of_maps:
        return f"loop<={of_maps[word]}", None
    if word == "tries":
        return bound, f"# promise: at most {bound.removeprefix('loop<=')} tries"
    count = {"elements": elements, "halves": elements // 2, "levels": elements.bit_length()}[word]
    return f"loop<={count}", f"# promise: at most {elements} elements"


def unpromised(row, folder):
    """which line of the bounds lacks its promise, or has one too many; None where none does"""
    loops, seen, made = library_loops(), collections.Counter(), []
    with open(os.path.join(folder, "bounds"), encoding="utf-8") as file:
        lines = ["", *file.read().splitlines()]
    for before, line in zip(lines, lines[1:]):
        if line.startswith("#"):
            continue
        method, _, bound = line.split(" ")
        promise = before if before.startswith("#") else None
        known = method.replace("java/lang/StringBuffer", "java/lang/StringBuilder")
        known = known if known in loops else known.replace("Ljop/Text;", "Ljava/lang/String;")
        if known not in loops:
            made.append(bound.removeprefix("loop<=") + ("!" if promise else ""))
        elif (bound, promise) != wanted_line(*loops[known][seen[method]], row.elements):
            return f"bounds has {promise} in front of {line}"
        seen[method] += 1
    return f"made={','.join(made)} came" if row.made is not None and made != row.made else None


def unbounded(method, least, jop, folder):
    """why a method has no bound, has one that is too small, or its certificate doesn't hold; None where all is well"""
    bounds = os.path.join(folder, "bounds")
    image, certificate = os.path.join(folder, "image"), os.path.join(folder, "certificate")
    made = subprocess.run([jop, "bound", "--method", method, image, bounds], capture_output=True, check=False)
    with open(certificate, "wb") as file:
        file.write(made.stdout)
    held = subprocess.run([jop, "check", image, bounds, certificate], capture_output=True, check=False).stderr.decode().strip()
    number = made.stdout.decode().split(" ")[-1].strip()
    if made.returncode or held != f"holds {method} {number}":
        return made.stderr.decode().strip() or held
    return f"the bound of {method} is {number}, and a run takes {least}" if least and int(number) < int(least) else None
