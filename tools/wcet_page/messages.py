"""What lacks or differs, told as a compiler does, with the line of the source and what to do. Not proved: a tool.

    Parser.java:70:9: error: loop without a bound (Parser.feed(B)V 30)
            while (at < end) {
            ^
      say how often it goes round at most: `// @WCA loop=N`
"""
import os
import re
import sys

ERROR, WARNING, REMARK = "error", "warning", "remark"
# How much of a line is shown in front of its column, and in all.
BEFORE, WIDTH = 60, 120


class Messages:
    """what is told, in the order of files and lines; `path_of` gives the path by which a file of the folder is told"""

    def __init__(self, path_of=lambda place: place):
        self.found, self.lines, self.path_of = [], {}, path_of

    def add(self, kind, rule, text, file=None, line=None, near=None, cure=None):
        """tells of a line of a file; `near` is a pattern of what the caret points at, or its column"""
        source = self.source(file, line)
        each = {"kind": kind, "rule": rule, "file": file, "line": line, "column": column(source, near), "text": text, "source": source, "cure": cure}
        if each not in self.found:
            self.found.append(each)

    def error(self, rule, text, file=None, line=None, near=None, cure=None):
        self.add(ERROR, rule, text, file, line, near, cure)

    def warn(self, rule, text, file=None, line=None, near=None, cure=None):
        self.add(WARNING, rule, text, file, line, near, cure)

    def remark(self, rule, text, file=None):
        self.add(REMARK, rule, text, file)

    def source(self, file, line):
        """the line of a file whose lines are known, else none"""
        lines = self.lines.get(file, ())
        return lines[line - 1] if line is not None and 1 <= line <= len(lines) else None

    def sorted(self):
        return sorted(self.found, key=lambda each: (each["file"] is None, each["file"] or "", each["line"] or 0))

    def count(self, kind):
        return sum(each["kind"] == kind for each in self.found)

    def put(self):
        """puts all on standard error, and how many there are"""
        for each in self.sorted():
            path = None if each["file"] is None else self.path_of(each["file"])
            print(*map(printable, [shown(each, path), *beneath(each)]), sep="\n", file=sys.stderr)
        counts = [f"{count} {kind}{'s' if count > 1 else ''}" for kind in (ERROR, WARNING) if (count := self.count(kind))]
        if counts:
            print(", ".join(counts), file=sys.stderr)


def printable(text):
    return text.encode("utf-8", "replace").decode()


def column(source, near):
    """the column, from 1, at which the caret stands: that of what is sought, else of the first character of the line"""
    if source is None:
        return None
    if isinstance(near, int):
        return near
    found = re.search(near, source) if near else None
    return (found.start() if found else len(source) - len(source.lstrip())) + 1


def place(each, path=None):
    """where a message is said of, as `FILE:LINE:COLUMN`"""
    path = path or each["file"]
    return "wcet" if path is None else ":".join([path, *(str(each[part]) for part in ("line", "column") if each[part] is not None)])


def shown(each, path=None):
    """the first line of a message"""
    return f"{place(each, path)}: {each['kind']}: {each['text']}"


def beneath(each):
    """the lines behind it: that of the source with a caret, and what to do"""
    found = []
    if each["source"] is not None and each["source"].strip():
        first = max(0, each["column"] - 1 - BEFORE) if len(each["source"]) > WIDTH else 0
        line = each["source"][first:first + WIDTH]
        found += [line, re.sub(r"[^\t]", " ", line[:each["column"] - 1 - first]) + "^"]
    return found + ([f"  {each['cure']}"] if each["cure"] else [])


def relative(path):
    """a path as it is told: as it was handed in, without `./`"""
    return path if os.path.isabs(path) else os.path.normpath(path)
