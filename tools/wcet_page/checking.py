"""What a record that is checked asks for, so that all can be made anew. Not proved: a tool."""
import copy
import json
import os

from .adapting import GIVEN, is_lacking
from .folder import RECORD, inside
from .study import FORM
from .words import FILES, MORE, RUN, WrongWords, number

# The rules of messages that tell of the folder that is checked, and belong to no record.
ABSENT, DIFFERS, PROGRAM = "absent", "differs", "program"
RULES = {ABSENT, DIFFERS, PROGRAM}


def read_record(folder):
    """the record of a folder"""
    path = os.path.join(folder, RECORD)
    with open(path, encoding="utf-8") as file:
        try:
            kept = json.load(file)
        except (ValueError, RecursionError):
            kept = None
    if not isinstance(kept, dict) or type(kept.get("form")) is not int or "methods" not in kept:
        raise WrongWords(f"{path}: no record of a program that was bounded")
    if kept["form"] != FORM:
        raise WrongWords(f"{path}: a record of form {kept['form']}, and not of form {FORM}, which this tools/wcet makes: take that of the record's commit")
    return kept


def asked_again(asked, kept, told):
    """the same call as that of which a record was made, of the files in its folder; those that are gone are told"""
    again, folder = copy.copy(asked), Reading(asked.check, kept, told)
    again.main = folder.text("main")
    again.options = {name: folder.number(name, value) for name, value in folder.part("options").items()}
    again.methods = folder.texts(folder.part("asked").get("methods"))
    again.sources = [os.path.join(asked.check, "given/sources")] if folder.part("asked").get("source") else []
    again.classes = folder.files(kept.get("classes"))
    files = folder.part("files")
    again.inputs, again.bounds, again.facts = (folder.files(files.get(name)) for name in ("inputs", "bounds", "facts"))
    again.files = {name: path for name in FILES if name[2:] in files for path in folder.files([files[name[2:]]])}
    if "adapted" in kept:
        adapted_again(again, folder, told)
    if "table" in files:
        again.rounds = folder.number("--rounds", folder.part("executive").get("rounds"), MORE)
    folder.files(kept.get("sources", []))
    return again


def adapted_again(again, folder, told):
    """takes what was adapted: it is adapted anew where the programs are here, else what was linked is taken as it is"""
    part, lack = folder.part("adapted"), is_lacking()
    files = {each: path for each in folder.named(part.get("files")) for path in folder.files([{"path": each}])}
    if lack:
        told.warn(PROGRAM, f"not adapted anew, so that given/classes come of given/{GIVEN} isn't checked: {lack}", RECORD)
        again.adapted = folder.kept, files
        return
    again.adapts, again.classes = True, [os.path.join(again.check, each) for each in folder.texts(part.get("classpath"))]
    again.elements = None if part.get("elements") is None else folder.number("--elements", part["elements"], MORE)
    again.asserts, again.bounds = part.get("assert") is True, again.bounds[1:]
    again.files.pop("--report", None)


class Reading:
    """the parts of a record as they have to be"""

    def __init__(self, folder, kept, told):
        self.folder, self.kept, self.told = folder, kept, told

    def wrong(self, what):
        return WrongWords(f"{os.path.join(self.folder, RECORD)}: {what}")

    def part(self, name):
        """a part that has names"""
        if not isinstance(self.kept.get(name), dict):
            raise self.wrong(f"no {name}")
        return self.kept[name]

    def text(self, name):
        return self.texts([self.kept.get(name)])[0]

    def texts(self, found):
        if not isinstance(found, list) or not all(isinstance(each, str) and each and "\0" not in each for each in found):
            raise self.wrong("names of a main class and of methods are wanted")
        return found

    def number(self, name, value, known=RUN):
        """an option as the command line takes it"""
        if name not in known or type(value) is not int:
            raise self.wrong(f"option {name}: {value!r} is no number of an option")
        try:
            return number(name, str(value))
        except WrongWords as fault:
            raise self.wrong(f"option {fault}") from None

    def named(self, found):
        """the places of a list of files"""
        if not isinstance(found, list) or not all(isinstance(each, dict) for each in found):
            raise self.wrong("lists of files are wanted")
        return self.texts([each.get("path") for each in found])

    def files(self, found):
        """the paths of files that a record names, where they are in the folder"""
        if not isinstance(found, list):
            raise self.wrong("lists of files are wanted")
        paths = []
        for each in found:
            if not isinstance(each, dict) or not isinstance(each.get("path"), str) or "\0" in each["path"]:
                raise self.wrong("files are wanted with their paths")
            path = inside(self.folder, each["path"])
            if path is None:
                self.told.error(ABSENT, "not found", each["path"])
            else:
                paths.append(path)
        return paths


def tell_programs(kept, record, told):
    """tells where the record was made by other programs, and takes their names for the one that is made anew"""
    used, named = record["programs"], kept.get("programs")
    for name, parts in used.items():
        theirs = named.get(name) if isinstance(named, dict) else None
        if not isinstance(theirs, dict) or theirs.keys() != parts.keys() or not all(isinstance(each, str) for each in theirs.values()):
            continue  # told as a difference of the records
        for part in parts:
            if theirs[part] != parts[part]:
                text = f"made by another {name}: {part} recorded {theirs[part]}, here {parts[part]}"
                (told.error if (name, part) == ("jop", "version") else told.warn)(PROGRAM, text, RECORD)
        used[name] = theirs
