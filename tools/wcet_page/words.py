"""The words of the command line, and what they ask for. Not proved: a tool."""
import difflib
import os
import shutil

TOP = os.path.dirname(os.path.dirname(os.path.dirname(os.path.realpath(__file__))))
# The options of the machine and of the run, each with its range, as docs/commands.md has them.
MACHINE = {"--blocks": (1, 256), "--block-words": (1, 1024), "--read": (0, 63), "--write": (0, 63)}
RUN = {"--cycles": (0, 2**63 - 1), "--stack": (256, 1024), "--memory": (16, 16777216), **MACHINE}
# Where they aren't given.
USUAL = {"--cycles": 1000000000, "--stack": 1024, "--memory": 262144, "--blocks": 16, "--block-words": 64, "--read": 1, "--write": 2}
# The numbers of the executive and of tools/adapt, and all numbers.
MORE = {"--rounds": (1, 32767), "--elements": (1, 2**31 - 1)}
NUMBERS = {**RUN, **MORE}
# Options with the names of the files that they take, at most once each.
FILES = ("--sizes", "--report", "--deadlines", "--against", "--table")
ONCE = ("--main", *FILES, "--out", "--sarif", "--jop", "--config", "--check")
OFTEN = ("--source", "--bounds", "--input", "--method", "--facts")
# Options without a value.
FLAGS = ("--adapt", "--assert")
# How alike a name is to one that may be meant.
ALIKE = 0.8
# What may stand beside --check.
CHECK = {"--check", "--jop", "--out", "--sarif"}


class WrongWords(Exception):
    """why the words give no call"""


class Asked:
    """what the words ask for, and what a file of options does that they don't say"""

    def __init__(self, words):
        self.once, self.often, self.numbers, self.flags = {}, {name: [] for name in OFTEN}, {}, set()
        while words and words[0].startswith("--"):
            words = words[self.take(words[0], words[1] if len(words) > 1 else None):]
        self.classes, self.check = list(words), self.once.get("--check")
        self.require_check()
        if self.check is None:
            self.fill()
        self.main, self.sarif = self.once.get("--main"), self.once.get("--sarif")
        self.files = {name: self.once[name] for name in FILES if name in self.once}
        self.sources, self.bounds, self.inputs, self.methods, self.facts = (self.often[name] for name in OFTEN)
        self.options = {name: value for name, value in self.numbers.items() if name in RUN}
        self.adapts, self.asserts, self.adapted = "--adapt" in self.flags, "--assert" in self.flags, None
        self.rounds, self.elements = self.numbers.get("--rounds"), self.numbers.get("--elements")
        self.out = self.once.get("--out", None if self.check else "wcet")
        self.require_whole()
        self.jop = self.found_jop()

    def take(self, name, value):
        """takes an option and its value, and gives how many words they are"""
        if name in FLAGS:
            if name in self.flags:
                raise WrongWords(f"{name} comes twice")
            self.flags.add(name)
            return 1
        if name not in ONCE and name not in OFTEN and name not in NUMBERS:
            raise WrongWords(f"no option {name}{nearest(name, [*ONCE, *OFTEN, *FLAGS, *NUMBERS])}")
        if value is None or value == "":
            raise WrongWords(f"{name} lacks its value")
        if name in OFTEN:
            self.often[name].append(value)
        elif name in self.once or name in self.numbers:
            raise WrongWords(f"{name} comes twice")
        elif name in ONCE:
            self.once[name] = value
        else:
            self.numbers[name] = number(name, value)
        return 2

    def fill(self):
        """takes of the file of options what the words don't say"""
        from . import config  # which has its names from here
        path = self.once.get("--config")
        if path is None and not os.path.exists(config.NAME):
            return
        for name, value in config.read(path or config.NAME).items():
            if name in FLAGS:
                self.flags |= {name} if value else set()
            elif name in OFTEN:
                self.often[name] = self.often[name] or value
            elif name in NUMBERS:
                self.numbers.setdefault(name, value)
            elif name == "--" + config.CLASSES:
                self.classes = self.classes or value
            else:
                self.once.setdefault(name, value)

    def require_check(self):
        """beside --check there is nothing that it doesn't take"""
        if self.check is not None and (self.numbers or self.flags or self.classes or any(self.often.values()) or set(self.once) - CHECK):
            raise WrongWords("--check goes with --jop, --out and --sarif alone")

    def require_whole(self):
        """what a call needs is there, and goes together"""
        if self.check is None and (self.main is None or not self.classes):
            raise WrongWords("--main NAME and CLASSES are wanted, here or in wcet.toml")
        if ("--table" in self.files) != (self.rounds is not None):
            raise WrongWords("--table and --rounds go together")
        if "--adapt" not in self.flags and (self.elements is not None or "--assert" in self.flags):
            raise WrongWords("--elements and --assert go with --adapt")
        if "--adapt" in self.flags and "--report" in self.files:
            raise WrongWords("--adapt makes the report itself: leave --report out")
        for path in [*self.classes, *self.sources, *self.bounds, *self.inputs, *self.facts, *self.files.values()]:
            if not os.path.exists(path):
                raise WrongWords(f"{path}: not found")

    def found_jop(self):
        """the program that is driven, or none"""
        built = os.path.join(TOP, "crates/jop/out/jop")
        found = self.once.get("--jop") or shutil.which("jop") or built
        return os.path.abspath(found) if os.access(found, os.X_OK) and os.path.isfile(found) else None


def nearest(name, names):
    """the most alike of some names, as a question"""
    found = difflib.get_close_matches(name, names, 1, ALIKE)
    return f"; is {found[0]} meant?" if found else ""


def number(name, text):
    """the number of an option, within its range"""
    least, most = NUMBERS[name]
    if not (text.isascii() and text.isdigit() and str(int(text)) == text and least <= int(text) <= most):
        raise WrongWords(f"{name}: a number from {least} to {most} is wanted")
    if name == "--stack" and int(text) not in (256, 512, 1024):
        raise WrongWords("--stack: 256, 512 or 1024 is wanted")
    return int(text)
