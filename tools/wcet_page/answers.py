"""What the lines of `jop` say, each figure with its line and the command that put it. Not proved: a tool."""
import re

NUMBER = "(0|[1-9][0-9]*)"
# A name is a word of a line: what lies between single spaces (rechecker/names.py).
NAME = "([^ \n]+)"
REMARK = re.compile(rf"# {NAME}:{NUMBER}")
# From which lines control goes back to a header, wherever it is remarked.
BACK = re.compile(r"# back from lines? [0-9, and]+")
LOOP = re.compile(rf"(# )?{NAME} {NUMBER} loop<=({NUMBER[1:-1]})?")
IRREDUCIBLE = re.compile(rf"# {NAME} irreducible((?: \d+r?)+)")
UNNAMED = re.compile(rf"# method={NUMBER} unnamed")
PROFILE = re.compile(rf"{NAME} count={NUMBER} greatest={NUMBER} total={NUMBER} misses={NUMBER} bound=(\w+)")
REPORT = re.compile(rf"([^\n]*) visits={NUMBER} cycles={NUMBER} share={NUMBER}%")
PART = re.compile(rf"(loads|invoke|return) cycles={NUMBER} share={NUMBER}%")
SHAPE = re.compile(rf"blocks={NUMBER} block-words={NUMBER} bound=([^ \n]+)")
PAIR = re.compile(r"([a-z]+)=(\d+)")


def text_of(data):
    return data.decode("utf-8", "surrogateescape")


def lines_of(data):
    """the lines of bytes, which end at line feeds alone: a name may hold what else ends lines"""
    lines = text_of(data).split("\n")
    return lines if lines[-1] else lines[:-1]


def figure(value, line, command):
    """a figure of the record: the value, the line that says it, and the command that put the line"""
    return {"value": value, "line": line, "command": command}


def number(text):
    """a bound as it is written: a number, or the word"""
    return int(text) if text.isdigit() else text


class Header:
    """a loop of `headers`: its method's name, its place, its source and line, and its bound"""

    def __init__(self, method, place, at, bound, line):
        self.method, self.place, self.at, self.bound, self.line = method, place, at, bound, line

    def key(self):
        return self.method, self.place


class Headers:
    """what a text of `headers` says: loops, and what has none that could be bounded"""

    def __init__(self, lines):
        self.loops, self.irreducible, self.unnamed = [], [], []
        at = None
        for line in lines:
            if BACK.fullmatch(line):
                continue
            remark, loop = REMARK.fullmatch(line), LOOP.fullmatch(line)
            tangled, unnamed = IRREDUCIBLE.fullmatch(line), UNNAMED.fullmatch(line)
            if tangled:
                self.irreducible.append((tangled[1], tangled[2].split()))
            elif unnamed:
                self.unnamed.append(int(unnamed[1]))
            elif loop and bool(loop[1]) == (loop[4] is None):
                bound = None if loop[4] is None else int(loop[4])
                self.loops.append(Header(loop[2], int(loop[3]), at, bound, line))
            at = (remark[1], int(remark[2])) if remark else None


def bounds_of(lines):
    """the bounds of a text of bounds by method's name and place, each with its line"""
    found = {}
    for line in lines:
        loop = LOOP.fullmatch(line)
        if loop and not loop[1] and loop[4]:
            found[loop[2], int(loop[3])] = int(loop[4]), line
    return found


def all_bounds(answer):
    """what `bound --all` says of each method, by name: a figure, and the cause where there is no bound"""
    found = {}
    for line in answer.lines():
        name, _, said = line.rpartition(" bound=")
        word, _, cause = said.partition(" ")
        found[name] = figure(number(word), line, answer.command), cause
    return found


def profile(answer):
    """what `profile` says of each method that ended, by name: figures"""
    found = {}
    for line in answer.lines():
        match = PROFILE.fullmatch(line)
        if match:
            parts = zip(("count", "greatest", "total", "misses"), match.groups()[1:5])
            found[match[1]] = {part: figure(int(text), line, answer.command) for part, text in parts}
    return found


def pairs(line, command):
    """the figures `name=N` of a line"""
    return {name: figure(int(text), line, command) for name, text in PAIR.findall(line)}


def report(answer):
    """the rows of a report: of lines, or of places without one; and its parts"""
    rows, parts = [], {}
    for line in answer.lines():
        row, part = REPORT.fullmatch(line), PART.fullmatch(line)
        if part:
            parts[part[1]] = figure(int(part[2]), line, answer.command)
        elif row:
            first, _, second = row[1].partition(" ")
            is_place = second.isdigit()
            file, _, at = first.rpartition(":")
            figures = {name: figure(int(text), line, answer.command) for name, text in zip(("visits", "cycles"), row.groups()[1:3])}
            rows.append({"method": first if is_place else second, "file": None if is_place else file, "at": int(second if is_place else at), **figures})
    return {"rows": rows, "parts": parts}


def shapes(answer):
    """the bounds in each shape: blocks, words of a block, figure"""
    found = []
    for line in answer.lines():
        match = SHAPE.fullmatch(line)
        if match:
            found.append({"blocks": int(match[1]), "words": int(match[2]), "bound": figure(number(match[3]), line, answer.command)})
    return found


def claimed(method):
    """the number that is claimed of a method that is recorded: that by facts, where there is one"""
    by_facts = method.get("by_facts")
    return by_facts["bound"] if by_facts else method["bound"]


def is_checked(method):
    """whether both checkers hold each certificate of a method that is recorded"""
    return method["checked"] and ("by_facts" not in method or bool(method["by_facts"] and method["by_facts"]["checked"]))
