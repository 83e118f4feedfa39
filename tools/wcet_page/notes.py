"""Sources, and the bounds of loops, the lengths of arrays and the visits of lines in their comments. Not proved: a tool.

A note is `@WCA loop=N` (or `loop<=N`) anywhere in a comment of one line, or `@ loop <= N` at its beginning; behind N stands
nothing, a blank and `(`, or `//`. It belongs to the line on which it stands; where it stands alone there, to the next line of
code. A note `@WCA length=N` is the same of arrays that are made at a line, and `@WCA total<=N` of how often the code of a line
begins, in a call of its method; with `in NAME` behind it, in one of that method. A comment may have several notes behind `//`.
"""
import difflib
import os
import re

from .classes import digest

# What may hold `//` and isn't a comment, and comments.
TOKEN = re.compile(r'//[^\n]*|/\*.*?\*/|"""(?:\\.|[^\\])*?"""|"(?:\\.|[^"\\\n])*"|\'(?:\\.|[^\'\\\n])*\'', re.S)
NUMBER = r"(0|[1-9][0-9]{0,9})"
BEHIND = r"(?=\s*$|\s+\()"
LOOP, LENGTH, TOTAL = "loop", "length", "total"
# The method in whose calls the visits of a line are counted.
ROOT = {LOOP: "", LENGTH: "", TOTAL: r"(?:\s+in\s+(\S+))?"}
NOTES = {kind: [re.compile(rf"@WCA\s+{kind}\s*(?:<=|=)\s*{NUMBER}{root}{BEHIND}"), re.compile(rf"^@\s*{kind}\s*<=\s*{NUMBER}{root}{BEHIND}")]
         for kind, root in ROOT.items()}
MARK = re.compile(r"@\s*wca\b", re.I)
WORD = re.compile(r"@\s*([A-Za-z]+)(?![\w.])")
KIND = re.compile(r"@\s*wca\s+([A-Za-z]+)", re.I)
# How notes are written.
WRITTEN = {LOOP: "`@WCA loop=N` or `@ loop <= N`", LENGTH: "`@WCA length=N` or `@ length <= N`", TOTAL: "`@WCA total<=N` or `@ total <= N`"}
# Where a caret points in a line with a note, and with one of visits.
AT, AT_TOTAL = r"@\s*\w", r"@\s*(WCA\s+)?total\b"
# How alike the first word of a comment is to that of a note, where it is taken for one that is misspelt.
ALIKE = 0.66
MOST = {LOOP: 2**32 - 1, LENGTH: 2**31 - 1, TOTAL: 2**32 - 1}


class Source:
    """a source: its name as class files have it, its place in the folder of the record, its SHA-256, its text and the lines of that"""

    def __init__(self, file, path, data):
        self.file, self.path, self.sha256 = file, path, digest(data)
        self.text = data.decode("utf-8", "replace").replace("\r\n", "\n").replace("\r", "\n")
        self.lines = self.text.split("\n")


class Note:
    """what a comment says of the loops, the arrays or the visits of a line: `at` is the comment's own line, `root` the method in whose calls it is said"""

    def __init__(self, source, at, line, bound, root=None):
        self.source, self.at, self.line, self.bound, self.root = source, at, line, bound, root

    def text(self, kind=LOOP):
        return f"{self.source.file}:{self.line} {kind}<={self.bound}" + (f" in {self.root}" if self.root else "")


def find(file, folders):
    """the path of the source of this name in the first folder that has it, or none; a name that leads out of the folder is none"""
    inside = not os.path.isabs(file) and ".." not in file.split("/") and "\0" not in file
    paths = (os.path.join(folder, file) for folder in folders if inside)
    return next(filter(os.path.isfile, paths), None)


def kept_source(study, file):
    """the place of a copy of a source by its name, none where it isn't at hand"""
    path = find(file, study.asked.sources) if file else None
    if path is None:
        return None
    with open(path, "rb") as opened:
        data = opened.read()
    place = next((place for place, kept in study.kept.paths.items() if kept == path), None) or study.kept.keep("sources", file, path, data)
    study.told.lines[place] = Source(file, place, data).lines
    return place


def comments(text):
    """the comments of a text of Java: the line on which each begins, its words, and the text with blanks in place of all comments"""
    found, parts, at = [], [], 0
    for token in TOKEN.finditer(text):
        if token[0][:2] in ("//", "/*"):
            words = token[0][2:] if token[0][1] == "/" else token[0][2:-2]
            found.append((text.count("\n", 0, token.start()) + 1, words.strip()))
            parts += [text[at:token.start()], re.sub(r"[^\n]", " ", token[0])]
            at = token.end()
    return found, "".join([*parts, text[at:]]).split("\n")


def parts_of(words):
    """the parts of a comment, which may be several behind one another"""
    return [part.strip() for part in words.split("//")]


def said_by(words, kind):
    """what the notes of a kind in a comment say, each a number and a method or none; of loops and lengths a comment has one"""
    found = [match for part in parts_of(words) for note in NOTES[kind] for match in note.finditer(part) if int(match[1]) <= MOST[kind]]
    return [(int(match[1]), match[2] if kind == TOTAL else None) for match in (found if kind == TOTAL else found[:1])]


def is_attempt(words):
    """whether a part of a comment that is no note seems to be meant as one"""
    first = WORD.match(words) if re.search(r"[<=0-9]", words) else None
    return bool(MARK.search(words)) or bool(first and difflib.get_close_matches(first[1].lower(), (*NOTES, "wca"), 1, ALIKE))


def misspelt(words):
    """what is told of the parts of a comment that seem to be meant as notes and aren't any"""
    for part in parts_of(words):
        if is_attempt(part) and not any(said_by(part, kind) for kind in NOTES):
            kind = KIND.search(part) or WORD.match(part)
            meant = difflib.get_close_matches(kind[1].lower(), NOTES, 1, ALIKE) if kind else []
            yield f"misspelt note `{part}`: write {WRITTEN[meant[0] if meant else LOOP]}"


def read(source, kind=LOOP):
    """the notes of a kind in a source, and what is wrong with its comments: lines and what is told"""
    notes, faults = [], []
    found, code = comments(source.text)
    for at, words in found:
        if "\n" in words:
            continue
        line = line_of(at, code)
        for bound, root in said_by(words, kind):
            earlier = next((note for note in notes if (note.line, note.root) == (line, root)), None)
            if line is None:
                faults.append((at, "a note without a line of code behind it"))
            elif earlier:
                faults.append((at, f"a second note for line {line}: the first stands on line {earlier.at}"))
            else:
                notes.append(Note(source, at, line, bound, root))
        faults += [(at, text) for text in misspelt(words)]
    return notes, faults


def line_of(at, code):
    """the line to which a comment belongs: its own, or the next one with code; none where there is none"""
    return next((line for line in range(at, len(code) + 1) if code[line - 1].strip()), None)
