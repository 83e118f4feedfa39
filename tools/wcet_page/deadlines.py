"""Deadlines of methods: lines `NAME N`, of which no bound may pass N cycles. Not proved: a tool."""
import os
import re

from .answers import claimed, is_checked, lines_of
from .words import nearest

ROW = re.compile(r"([^ \n]+) (0|[1-9][0-9]*)")


class Deadline:
    """what a line says: a method's name, cycles, and the line's number"""

    def __init__(self, method, cycles, line):
        self.method, self.cycles, self.line = method, cycles, line


class Deadlines:
    """the deadlines of a file, none where none is given"""

    def __init__(self, study):
        self.told, self.rows, given = study.told, [], study.files.get("deadlines")
        self.path = given["path"] if given else None
        if given:
            with open(os.path.join(study.folder, self.path), "rb") as file:
                self.read(lines_of(file.read()))

    def read(self, lines):
        self.told.lines[self.path] = lines
        for number, line in enumerate(lines, 1):
            found = ROW.fullmatch(line)
            if found and not any(each.method == found[1] for each in self.rows):
                self.rows.append(Deadline(found[1], int(found[2]), number))
            elif line and not line.startswith("#"):
                text = f"a second deadline of {found[1]}" if found else f"no line of deadlines: `{line}`"
                self.told.error("deadlines", text, self.path, number, cure="write `NAME N`: a method as `Main.step(I)I`, a space, and cycles")

    def record(self, methods):
        """each deadline with whether the bound keeps it; what doesn't is told"""
        by_name, found = {each["method"]: each for each in methods}, []
        for each in self.rows:
            method = by_name.get(each.method)
            if method is None:
                self.told.error("deadlines", f"no method {each.method}{nearest(each.method, list(by_name))}", self.path, each.line)
                continue
            bound = claimed(method)["value"]
            is_kept = is_checked(method) and isinstance(bound, int) and bound <= each.cycles
            found.append({"method": each.method, "cycles": each.cycles, "file": self.path, "line": each.line, "kept": is_kept})
            if not is_kept:
                self.tell(each, bound, " by facts" if method.get("by_facts") else "")
        return found

    def tell(self, deadline, bound, of):
        by = f" by {bound - deadline.cycles}" if isinstance(bound, int) else ""
        said = f"the bound {bound}{of}" if isinstance(bound, int) else "that never ends" if bound == "never" else "that has no bound"
        text = f"{deadline.method}: {said} doesn't keep the deadline {deadline.cycles}{by and f', which it passes{by}'}"
        cure = "a longer deadline, or less work: the page shows where the number comes from"
        self.told.error("late", text, self.path, deadline.line, r"\d+$", cure)
