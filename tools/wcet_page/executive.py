"""The slots of a cyclic executive: what `plan` says of each, and how runs of `cycle` kept them. Not proved: a tool."""
import os
import re
import shlex

from . import answers
from .folder import put

BOUNDS, RAISED = "wcet.bounds", "wcet.slots"
ROW = re.compile(r"slot ([^ \n]+) (0|[1-9][0-9]*)")
PLANNED = re.compile(r"slot (\d+) [^ \n]+ bound=(\d+) length=\d+")
CAUSE = re.compile(r"plan: slot (\d+) (.*)")
# The greatest length of a slot, at which each bound is told.
MOST = 2**64 - 1


class Slot:
    """a line of the table: its number from 0, its method, its length, and the number of the line"""

    def __init__(self, number, method, length, line):
        self.number, self.method, self.length, self.line = number, method, length, line


class Executive:
    """a table that was handed in, with what is said of its slots"""

    def __init__(self, study, table):
        self.study, self.told, self.table, self.rounds = study, study.told, table, str(study.asked.rounds)
        with open(os.path.join(study.folder, table), "rb") as file:
            self.lines = study.told.lines[table] = answers.lines_of(file.read())
        found = [(number, ROW.fullmatch(line)) for number, line in enumerate(self.lines, 1)]
        rows = [(number, row) for number, row in found if row]
        self.slots = [Slot(place, row[1], int(row[2]), number) for place, (number, row) in enumerate(rows)]
        self.files = [each.place for each in study.classes if each.is_linked]
        self.bounds = {}

    def call(self, command, table, *words, given=b""):
        return self.study.jop.call(command, "--rounds", self.rounds, table, *words, *self.files, given=given)

    def plan(self):
        """the bound of each slot; where one is late, by a table of the same slots that none passes"""
        answer = self.call("plan", self.table, BOUNDS)
        if answer.line.startswith("plan: late"):
            put(self.study.folder, RAISED, "".join(f"slot {each.method} {MOST}\n" for each in self.slots).encode("utf-8", "surrogateescape"))
            answer = self.call("plan", RAISED, BOUNDS)
        if answer.status:
            self.refuse(answer)
        for line in answer.lines():
            found = PLANNED.fullmatch(line)
            if found:
                self.bounds[int(found[1])] = answers.figure(int(found[2]), line, answer.command)

    def refuse(self, answer):
        """tells why slots aren't planned, at the line of the slot where it is said of one"""
        cause, line = CAUSE.fullmatch(answer.line), re.fullmatch(r"bad table line=(\d+)", answer.line)
        unresolved = re.search(r" name=([^ \n]+)$", answer.line)
        named = next((each.line for each in self.slots if unresolved and unresolved[1] in (each.method, each.method.partition(".")[0])), None)
        if cause:
            self.told.error("slots", f"the slot has no bound: {cause[2]}", self.table, self.slots[int(cause[1])].line)
        elif line:
            cure = "write `slot CLASS.METHOD()V LENGTH`, with single spaces, and a length in cycles"
            self.told.error("slots", f"no line of a table of slots: `{self.lines[int(line[1]) - 1]}`", self.table, int(line[1]), cure=cure)
        elif answer.line.startswith("slots "):
            self.told.error("slots", f"{answer.line.partition(' ')[2]} slots: a table has 1 to 64", self.table)
        else:
            self.told.error("slots", f"{answer.command}: {answer.line}", self.table, named)

    def record(self):
        """each slot with whether its bound is within its length; what isn't is told"""
        found = []
        for each in self.slots:
            bound = self.bounds.get(each.number)
            is_kept = bound is not None and bound["value"] <= each.length
            length = answers.figure(each.length, self.lines[each.line - 1], self.table)
            found.append({"slot": each.number, "method": each.method, "line": each.line, "length": length, "bound": bound, "kept": is_kept})
            if bound and not is_kept:
                text = f"slot {each.number}: the bound {bound['value']} passes the length {each.length} by {bound['value'] - each.length}"
                self.told.error("late", text, self.table, each.line, r"\d+$", "a longer slot, or less work: the page shows where the number comes from")
        return {"table": self.table, "rounds": int(self.rounds), "slots": found, "cycles": []}

    def run(self, path, data):
        """a run of the executive with an input"""
        answer = self.call("cycle", self.table, given=data)
        answer.command += f" < {shlex.quote(path)}"
        if answer.status not in (0, 1, 3):
            self.told.error("refused", f"{answer.command}: {answer.line}", path)
            return []
        figures = answers.pairs(answer.line, answer.command)
        late, slots = figures["late"]["value"], figures["slots"]["value"]
        if late:
            self.told.error("late", f"with {path} {late} of {slots} calls of slots took longer than their slots", self.table)
        return [{"input": path, "line": answer.line, "figures": figures}]


def planned(study, inputs):
    """what a record says of the slots of a table and of runs with inputs, none where no table is given"""
    given = study.files.get("table")
    if given is None:
        return None
    executive = Executive(study, given["path"])
    executive.plan()
    found = executive.record()
    if all(each["bound"] for each in found["slots"]):
        found["cycles"] = [row for path, data in inputs for row in executive.run(path, data)]
    return found
