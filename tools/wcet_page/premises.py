"""The bounds of loops: of comments, of files, and those that `jop loops` finds; and which loops have none. Not proved: a tool."""
import os

from . import notes
from .answers import Headers, bounds_of, figure, lines_of as lines_of_bytes
from .folder import put
from .lines import source_file

NOTE, FILE, FOUND = "note", "file", "found"
# How a comment in front of a line of bounds begins, as tools/adapt writes it, that says what the line stands on.
PROMISE = "# promise: "
# Files of a folder of sources that are looked through at most for one that lies elsewhere.
MOST = 20000


class Line:
    """a line of the text that `headers` reads: what it says, who says it, where, and the promise that it stands on, if one is written"""

    def __init__(self, text, by, file, line, promise=None):
        self.text, self.by, self.file, self.line, self.promise = text, by, file, line, promise

    def record(self):
        return {"text": self.text, "by": self.by, "file": self.file, "line": self.line, "promise": self.promise}


def sources_of(methods, folders, kept, told):
    """copies of the sources that the classes of a program name and that are in the folders, by their names"""
    names = sorted({file for file in map(source_file, methods.own_classes()) if file})
    found = {}
    for file in names:
        path = notes.find(file, folders)
        if path:
            with open(path, "rb") as opened:
                data = opened.read()
            place = kept.keep("sources", file, path, data)
            found[file] = notes.Source(file, place, data)
            told.lines[place] = found[file].lines
    for folder in folders if names else ():
        if not any(notes.find(file, [folder]) for file in names):
            text = f"--source {folder}: none of the sources is there ({', '.join(names[:3])}{', ..' if names[3:] else ''})"
            told.error("no-source", text, cure=elsewhere(names, folder))
    return found


def elsewhere(names, folder):
    """where a source lies that isn't where its package says"""
    seen = 0
    for at, _, files in os.walk(folder):
        seen += len(files)
        for file in names:
            if os.path.basename(file) in files:
                path = os.path.join(at, os.path.basename(file))
                top = path[:-len(file)].rstrip("/") if path.endswith("/" + file) else None
                return f"name the folder in which the packages begin: --source {top}" if top else f"{path} is there, but {file} is wanted"
        if seen > MOST:
            break
    return "name the folder in which the packages begin, so that it has " + names[0]


def lines_of(sources, folder, files, told):
    """the lines that sources and files of bounds give; what is wrong with comments is told"""
    found = []
    for source in sources.values():
        read, faults = notes.read(source)
        found += [Line(note.text(), NOTE, source.path, note.at) for note in read]
        for at, text in faults:
            told.error("note", text, source.path, at, notes.AT)
    for path in (each["path"] for each in files):
        with open(os.path.join(folder, path), "rb") as file:
            told.lines[path] = lines_of_bytes(file.read())
        found += given_lines(path, told.lines[path])
    return found


def given_lines(path, rows):
    """the lines of a file of bounds, each with the promise of the comment in front of it"""
    for number, (before, row) in enumerate(zip(["", *rows], rows), 1):
        if row and not row.startswith("#"):
            yield Line(row, FILE, path, number, before.removeprefix(PROMISE) if before.startswith(PROMISE) else None)


def settled(jop, lines, told, known):
    """the lines that `headers` takes, and its answer; those that it refuses are told, one after another, and left out"""
    lines = untangled(lines, told, known)
    while True:
        put(jop.folder, "wcet.notes", "".join(each.text + "\n" for each in lines).encode("utf-8", "surrogateescape"))
        answer = jop.call("headers", "wcet.jopi", "wcet.notes")
        refused = refused_line(answer.line, lines) if answer.status == 2 else None
        if refused is None:
            return lines, answer
        told.error("stale" if answer.line.startswith("no loop") else "bounds", *reason(answer.line, refused, known))
        lines.remove(refused)


def untangled(lines, told, known):
    """the lines but those of loops with several entries, which are told: `headers` may take them"""
    kept = []
    for each in lines:
        where, kind = each.text.partition(" loop<=")[0], "note" if each.by == NOTE else "bound"
        if where in known.tangled:
            text = f"a {kind} of a loop with several entries, which no number bounds: {where}"
            told.error("stale", text, each.file, each.line, notes.AT if each.by == NOTE else None, "let no jump lead into the loop")
        else:
            kept.append(each)
    return kept


def refused_line(said, lines):
    """the line that `headers` refuses, by its number or by its words"""
    kind, _, rest = said.partition(" line=")
    if kind in ("bad lines", "twice lines") and rest.isdigit():
        return lines[int(rest) - 1]
    if said.startswith("no loop "):
        return next((each for each in lines if each.text.startswith(said[len("no loop "):] + " ")), None)
    return None


def reason(said, line, known):
    """what is told of a line that `headers` refuses: text, file, line, where, and what to do"""
    at, near = (line.file, line.line), notes.AT if line.by == NOTE else None
    if said.startswith("bad lines"):
        return f"no line of bounds: `{line.text}`", *at, near, "write `FILE:LINE loop<=N` or `NAME PC loop<=N`, with single spaces"
    if said.startswith("twice lines"):
        return f"a second bound for what has one: `{line.text}`", *at, near, "leave one of them"
    where, kind = said[len("no loop "):], "note" if line.by == NOTE else "bound"
    return f"stale {kind}: {said}{known.nearest(where)}", *at, near, "write it on the line of the loop's condition, or of the first line of its body"


class Known:
    """the lines of sources at which loops are headed, and the lines and places of loops with several entries"""

    def __init__(self, plain, methods):
        self.headed = [each.at for each in plain.loops if each.at]
        nodes = [(methods.number[name], int(node.rstrip("r"))) for name, found in plain.irreducible for node in found]
        self.tangled = {"%s:%d" % at for at in (methods.at(*node) for node in nodes) if at} | {f"{methods.names[m]} {place}" for m, place in nodes}

    def nearest(self, where):
        """the line of the nearest loop of the same file, as a hint"""
        file, _, line = where.rpartition(":")
        lines = {at[1] for at in self.headed if at[0] == file} if line.isdigit() else set()
        if not lines:
            return ""
        return f"; the nearest loop is headed at line {min(lines, key=lambda each: (abs(each - int(line)), each))}"


class Premises:
    """all loops of a program, with the bounds that are supposed and who gave them"""

    def __init__(self, jop, methods, lines, text):
        self.methods = methods
        plain, found = jop.call("headers", "wcet.jopi"), jop.call("loops", "wcet.jopi")
        self.headers, self.lines, self.found = Headers(plain.lines()), lines, found
        self.bounds, self.counted = bounds_of(text), bounds_of(found.lines())

    def givers(self, loop):
        """who says a bound of a loop"""
        found = []
        if loop.key() in self.counted:
            value, line = self.counted[loop.key()]
            found.append({"by": FOUND, "bound": figure(value, line, self.found.command), "file": None, "line": None, "promise": None})
        starts = [f"{loop.method} {loop.place} loop<="] + ([f"{loop.at[0]}:{loop.at[1]} loop<="] if loop.at else [])
        for each in self.lines:
            start = next((start for start in starts if each.text.startswith(start)), None)
            if start:
                bound = figure(int(each.text[len(start):]), each.text, "wcet.notes")
                found.append({"by": each.by, "bound": bound, "file": each.file, "line": each.line, "promise": each.promise})
        return found

    def record(self):
        """each loop as it goes into the record"""
        return [self.recorded(loop) for loop in self.headers.loops]

    def recorded(self, loop):
        value, line = self.bounds.get(loop.key(), (None, None))
        file, at = loop.at or (None, None)
        return {"method": loop.method, "place": loop.place, "file": file, "line": at, "bound": None if value is None else figure(value, line, "wcet.bounds"),
                "by": self.givers(loop), "seen": []}
