"""The greatest lengths of arrays, of comments and of a file, and which arrays have none. Not proved: a tool."""
import os
import re

from rechecker.class_files import instructions

from . import answers, notes
from .folder import put

SIZES = "wcet.sizes"
NEW_ARRAY, NEW_ARRAY_OF_REFERENCES = 188, 189
ROW = re.compile(r"([^ \n]+) (0|[1-9][0-9]*) length<=(0|[1-9][0-9]*)")
MOST = 2**31 - 1
MISSING = re.compile(r"memory: missing size ([^ \n]+) (\d+)")
CURE = "say how long the array is at most: `// @WCA length=N`"


class Lengths:
    """the lengths that are supposed, by method's name and place, and who gives them"""

    def __init__(self, study):
        self.study, self.methods, self.told = study, study.methods, study.told
        self.given, self.by_line, self.made, self.noted = {}, {}, {}, {}
        for m in range(len(self.methods.names)):
            for place in makers(self.methods.program.body(m)["code"]) if self.methods.is_own(m) else ():
                at, key = self.methods.at(m, place), (self.methods.names[m], place)
                if at is None:  # of a method that was made: the arrays are those of the lines that call it
                    self.made[key] = self.callers(m)
                for each in [at] if at else self.made[key]:
                    self.by_line.setdefault(each, []).append(key)

    def take(self):
        """takes the notes of the sources, and the lines of the file of --sizes; puts them as one text"""
        for source in self.study.sources.values():
            for note in notes.read(source, notes.LENGTH)[0]:
                self.take_note(source, note)
        for key, found in self.noted.items():
            if len(found) == len(self.made[key]):
                for source, note in found:
                    self.add(key, note.bound, "note", source.path, note.at)
        given = self.study.files.get("sizes")
        if given:
            self.take_file(given["path"])
        put(self.study.folder, SIZES, self.text().encode("utf-8", "surrogateescape"))

    def take_note(self, source, note):
        found = self.by_line.get((source.file, note.line), [])
        if not found:
            lines = sorted(line for file, line in filter(None, self.by_line) if file == source.file)
            hint = f"; the nearest is made at line {min(lines, key=lambda each: abs(each - note.line))}" if lines else ""
            text = f"stale note: no array is made at line {note.line}{hint}"
            self.told.error("stale", text, source.path, note.at, notes.AT, "write it on the line of the `new`")
        for key in found:
            if key in self.made:
                self.noted.setdefault(key, []).append((source, note))
            else:
                self.add(key, note.bound, "note", source.path, note.at)

    def take_file(self, path):
        with open(os.path.join(self.study.folder, path), "rb") as file:
            self.told.lines[path] = answers.lines_of(file.read())
        for number, row in enumerate(self.told.lines[path], 1):
            found = ROW.fullmatch(row)
            if found and int(found[3]) <= MOST:
                self.add((found[1], int(found[2])), int(found[3]), "file", path, number)
            elif row and not row.startswith("#"):
                self.told.error("lengths", f"no line of lengths: `{row}`", path, number, cure="write `NAME PC length<=N`, with single spaces")

    def add(self, key, length, by, file, line):
        self.given.setdefault(key, []).append({"length": length, "by": by, "file": file, "line": line})

    def text(self):
        """the text that `memory` reads: of several lengths the least"""
        return "".join(f"{row}\n" for row in map(self.row, self.given))

    def length(self, key):
        """what all say together: of several that are said of one array the least, of several lines that call a method that was made the greatest"""
        notes_of = [each["length"] for each in self.given[key] if each["by"] == "note"]
        others = [each["length"] for each in self.given[key] if each["by"] != "note"]
        return min(others + ([max(notes_of)] if notes_of and key in self.made else notes_of))

    def row(self, key):
        return f"{key[0]} {key[1]} length<={self.length(key)}"

    def record(self):
        """each length as it goes into the record"""
        found = []
        for key, by in self.given.items():
            name, place = key
            m = self.methods.number.get(name)
            file, line = (self.methods.at(m, place) if m is not None else None) or (None, None)
            length = answers.figure(self.length(key), self.row(key), SIZES)
            found.append({"method": name, "place": place, "file": file, "line": line, "length": length, "by": by})
        return found

    def missing(self, answer, ask):
        """all arrays without a length, where one is told; each is asked for once the one before has a length"""
        found, match = [], MISSING.fullmatch(answer.line)
        while match:
            found.append((match[1], int(match[2])))
            asked = self.text() + "".join(f"{name} {place} length<=0\n" for name, place in found)
            put(self.study.folder, SIZES, asked.encode("utf-8", "surrogateescape"))
            match = MISSING.fullmatch(ask().line)
            if match and (match[1], int(match[2])) in found:
                break
        put(self.study.folder, SIZES, self.text().encode("utf-8", "surrogateescape"))
        return found

    def tell(self, found):
        """tells of arrays without a length; of one that a made method makes, at the lines that call it and say none"""
        for name, place in found:
            m, by_place = self.methods.number[name], f"say how long it is at most, in a file of --sizes: `{name} {place} length<=N`"
            at, said = self.methods.at(m, place), [(source.file, note.line) for source, note in self.noted.get((name, place), [])]
            made = "" if at else ", made by tools/adapt for this line"
            text = f"array without a greatest length, so no memory is told ({name} {place}{made})"
            for each in [at] if at else [each for each in self.made.get((name, place), []) if each not in said] or [None]:
                cure = CURE if each and each[0] in self.study.sources else by_place
                self.told.warn("length", text, *self.study.shown(each), r"\bnew\b|\.clone\b", cure)

    def callers(self, m):
        """the files and the lines of the calls of a method that has no lines, those of calls by others that have none among them"""
        found, todo, done = set(), [m], set()
        while todo:
            callee = todo.pop()
            done.add(callee)
            for caller, called in enumerate(self.methods.program.called):
                for at in [self.methods.at(caller, place) for place, targets in called.items() if callee in targets]:
                    if at is None and caller not in done:
                        todo.append(caller)
                    found |= {at} - {None}
        return sorted(found)


def makers(code):
    """the places of the instructions that make arrays"""
    return [at for at, op, _ in instructions(code) if op in (NEW_ARRAY, NEW_ARRAY_OF_REFERENCES)]
