"""The lines of a method with what is called from them, as far as a report tells it exactly. Not proved: a tool.

A report has the cycles of each method in all its calls together. What is called from one line alone belongs to that line; lines
from which a common method may be called are counted together. The loads of the method cache are no line's.
"""


def lines_of(m, name, report, methods):
    """groups of lines (or places without one) of a method that its report has, each with the cycles of these and of all that is called from them"""
    other = {}
    for row in report["rows"]:
        if row["method"] != name:
            other[row["method"]] = other.get(row["method"], 0) + row["cycles"]["value"]
    groups = [({key(row)}, reached(m, key(row), methods) & set(other), row["cycles"]["value"]) for row in report["rows"] if row["method"] == name]
    found = []
    for group in groups:
        for old in [each for each in found if each[1] & group[1]]:
            found.remove(old)
            group = old[0] | group[0], old[1] | group[1], old[2] + group[2]
        found.append(group)
    made = [{"lines": sorted(at for is_line, at in keys if is_line), "places": sorted(at for is_line, at in keys if not is_line),
             "cycles": cycles + sum(other[each] for each in called)} for keys, called, cycles in found]
    return sorted(made, key=lambda each: min(each["lines"] + each["places"]))


def key(row):
    """whether a row of a report is of a line, and that line, else the place"""
    return row["file"] is not None, row["at"]


def reached(m, at, methods):
    """the names of the methods that may run while one that is called from a line, or a place, does"""
    found, program = set(), methods.program
    for place, targets in program.called[m].items():
        line = methods.line(m, place)
        if at == ((True, line) if line is not None else (False, place)):
            found |= set(program.within(targets))
    return {methods.names[each] for each in found}
