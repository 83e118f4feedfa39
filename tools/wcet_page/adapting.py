"""Class files of ordinary Java, which tools/adapt adapts before they are linked. Not proved: a tool."""
import os
import re
import shlex
import subprocess

from . import notes, programs
from .answers import lines_of
from .classes import digest, is_wanted
from .words import TOP, USUAL, WrongWords

ADAPT = os.path.join(TOP, "tools/adapt")
GIVEN = "ordinary"
# The status of tools/adapt where a program that it wants is missing.
MISSING = 3
WORD_BYTES = 4
REFUSED = re.compile(r"(\S+?)(?::(\d+))?: error: (.*?)(?:; (write .*))?")


class Lacking(Exception):
    """the programs that are missing, in the words of tools/adapt"""


class Adapted:
    """what tools/adapt made of the class path that was handed in: class files, bounds and a report; none where it refuses"""

    def __init__(self, study, room):
        self.study, self.told, self.out = study, study.told, os.path.join(room, "adapted")
        self.classes, self.bounds, self.report = [], [], None
        self.record = kept_path(study)
        words = self.words()
        self.record["command"] = shlex.join(["tools/adapt", *words[:2], "adapted", *words[3:]])
        study.record["adapted"] = self.record
        self.run(words)
        study.record["programs"].update(programs.adapting())

    def words(self):
        asked = self.study.asked
        size = {**USUAL, **asked.options}
        words = [asked.main, "-o", self.out, "--report", "--method-bytes", str(size["--blocks"] * size["--block-words"] * WORD_BYTES)]
        words += ["--elements", str(asked.elements)] if asked.elements is not None else []
        return words + (["--assert"] if asked.asserts else []) + self.record["classpath"]

    def run(self, words):
        """adapts, and takes what was written"""
        environment = {**os.environ, "ADAPT_JOP": self.study.jop.program}
        ran = subprocess.run([ADAPT, *words], cwd=self.study.folder, env=environment, capture_output=True, check=False)
        said, errors = lines_of(ran.stdout), lines_of(ran.stderr)
        if ran.returncode == MISSING:
            raise Lacking("\n".join(errors))
        files = os.path.join(self.out, "files")
        if not os.path.isfile(files):
            self.refuse(errors)
            return
        with open(files, encoding="utf-8", errors="surrogateescape") as file:
            self.classes = [os.path.join(self.out, name) for name in file.read().split()]
        self.bounds = [os.path.join(self.out, "bounds")]
        self.report = os.path.join(self.out, "report")
        with open(self.report, "w", encoding="utf-8", errors="surrogateescape") as file:
            file.write("".join(line + "\n" for line in said))
        tell_notes(said, self.told)

    def refuse(self, errors):
        """tells what can't be adapted, each with its line"""
        for line in errors:
            found = REFUSED.fullmatch(line)
            if found and found[2]:
                self.told.error("adapt", found[3], self.source(found[1]), int(found[2]), cure=found[4])
            elif found:
                self.told.error("adapt", f"{found[3]} ({found[1]})", cure=found[4])
            elif not line.endswith("nothing written"):
                self.told.error("adapt", line.removeprefix("adapt: "))

    def source(self, file):
        """the place of a copy of a source, its name where it isn't at hand"""
        return notes.kept_source(self.study, file) or file


def tell_notes(report, told):
    """tells the notes of a report"""
    for line in report:
        if line.startswith("note "):
            told.remark("adapt", line.removeprefix("note "))


def kept_path(study):
    """copies of the class path that was handed in, as they go into the record"""
    found = {"classpath": [], "files": [], "elements": study.asked.elements, "assert": study.asked.asserts}
    for number, path in enumerate(study.asked.classes, 1):
        if os.path.isdir(path):
            found["classpath"].append(f"given/{GIVEN}/{number}")
            names = sorted(os.path.relpath(os.path.join(at, name), path) for at, _, every in os.walk(path) for name in every)
            found["files"] += [kept_file(study, number, name, os.path.join(path, name)) for name in names if is_wanted(name)]
        elif path.endswith(".class"):
            raise WrongWords(f"{path}: --adapt takes folders and jar files")
        else:
            found["files"].append(kept_file(study, number, os.path.basename(path), path))
            found["classpath"].append(found["files"][-1]["path"])
    return found


def kept_file(study, number, name, path):
    with open(path, "rb") as file:
        data = file.read()
    return {"path": study.kept.keep(GIVEN, f"{number}/{name}", path, data), "sha256": digest(data)}


def is_lacking():
    """what is missing of the programs of tools/adapt, in its words; nothing where all are here"""
    ran = subprocess.run([ADAPT, "--help"], capture_output=True, check=False)
    return "; ".join(lines_of(ran.stderr)) if ran.returncode == MISSING else ""


def taken_over(study):
    """the part of a record that can't be made anew"""
    kept, files = study.asked.adapted
    found = [kept_file(study, *place.removeprefix(f"given/{GIVEN}/").split("/", 1), path=path) for place, path in files.items()]
    study.record["adapted"] = {**kept["adapted"], "files": found}
    if "--report" in study.asked.files:
        with open(study.asked.files["--report"], "rb") as file:
            tell_notes(lines_of(file.read()), study.told)
    named = kept.get("programs")
    study.record["programs"].update({name: named[name] for name in programs.ADAPTING if isinstance(named, dict) and name in named})
