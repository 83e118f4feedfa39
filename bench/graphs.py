#!/usr/bin/env python3
"""graphs.py [small]: how long loops, blocks and greatest walks of graphs like those of the longest methods take, and checks of sections
with many loops. Rows are given to the built `crates/test_graphs/out/test_graphs`, or the program that the variable TEST_GRAPHS names; from
the user time of each that of a row is taken which is read and answered at once. With `small`, it takes small graphs and prints what is
found of them, without times."""
import os
import sys

from timing import TOP, once

PROGRAM = os.environ.get("TEST_GRAPHS", f"{TOP}/crates/test_graphs/out/test_graphs")


def answer(row):
    """the lines behind the row, and the seconds that the program took"""
    timed = once([PROGRAM], None, f"{row}\n".encode())
    if timed.status != 0:
        sys.exit(f"{PROGRAM} ended with {timed.status}: {timed.line}")
    return [line.strip() for line in timed.out.decode().split("\n")[1:] if line], timed.seconds


def words(items):
    return " ".join(str(item) for item in items)


class Graph:
    """A graph that ends in its last node, with the costs of its nodes, and the bound and load of each loop."""

    def __init__(self, nodes, edges, costs):
        self.nodes, self.edges, self.costs = nodes, edges, costs
        self.bounds = self.loads = ()

    def row(self, word, *more):
        graph = [self.nodes, words(f"{u}-{v}" for u, v in self.edges), self.nodes - 1]
        return " | ".join(str(field) for field in [word, *graph, *more])

    def problem(self, word, *more, costs=None):
        costs = self.costs if costs is None else costs
        return self.row(word, words(costs), words(self.bounds), words(self.loads), *more)

    def read_alone(self, costs):
        """the time of a row that has a cost too few, or none of them"""
        row = self.problem("index", "", "", "", costs=self.costs[1:]) if costs else self.row("index", *6 * [""])
        return answer(row)[1]


def method(instructions, group, depth):
    """Instructions, each with a raise node that leads to the last one, in groups that each have so many loops in one another."""
    last, edges = 2 * (instructions - 1), []
    for i in range(instructions):
        u, at = 2 * i, i % group
        back = group - 1 - at
        if back < depth and back < at:
            edges.append((u, 2 * (i - at + back)))
        edges.append((u, u + 1))
        if u < last:
            edges += [(u, u + 2), (u + 1, last)]
    # the last raise node is the exit
    return Graph(2 * instructions, edges, [1 + u % 7 for u in range(2 * instructions)])


def chain(groups, size, depth):
    """Groups of so many nodes, one after another, each with so many loops in one another."""
    edges = []
    for u in range(groups * size):
        at = u % size
        back = size - 1 - at
        if back < depth and back < at:
            edges.append((u, u - at + back))
        edges.append((u, u + 1))
    return Graph(groups * size + 1, edges, [3] * (groups * size + 1))


def switch(loops):
    """Loops of two nodes behind one switch."""
    last = 2 * loops + 1
    edges = [(0, 2 * j + 1) for j in range(loops)]
    for j in range(loops):
        edges += [(2 * j + 1, 2 * j + 2), (2 * j + 2, 2 * j + 1), (2 * j + 2, last)]
    return Graph(last + 1, edges, [3] * (last + 1))


def interleaved(loops, size, crossed):
    """A row of a section: each loop has every `loops`-th node from its header on. With `crossed`, the last but one has the last node, too."""
    members = [[header + k * loops for k in range(size)] for header in range(loops)]
    if crossed:
        members[loops - 2].append(loops * size - 1)
    section = words(f"{header}:9:{','.join(map(str, ms))}" for header, ms in enumerate(members))
    fields = [loops * size, "", "", words([3] * (loops * size)), words([1] * loops), words([1] * loops), "", section, words([1] * loops)]
    return " | ".join(str(field) for field in ["index", *fields])


def loops_of(graph):
    """the headers and members of the loops of a graph"""
    found = []
    for line in answer(graph.row("nest"))[0]:
        header, members = line.removeprefix("loop ").split(":")
        found.append((header, members.split(", in loop")[0].split()))
    return found


def section_of(graph):
    """the section of the greatest walk of a graph, as it stands in a row"""
    members = dict(loops_of(graph))
    value, *loops = answer(graph.problem("longest"))[0]
    potentials = value.split("potentials")[1]
    shown = [line.removeprefix("loop ").split(", an iteration costs ") for line in loops]
    return potentials.strip(), words(f"{header}:{cost}:{','.join(members[header])}" for header, cost in shown), words(["0"] * len(shown))


def milliseconds(seconds, less):
    return f"{1000 * max(seconds - less, 0):.0f} ms"


def measure(title, graph, bound, load, checked, timed):
    counts, counted = answer(graph.row("counts"))
    loops = int(counts[0].split()[1].strip(","))
    graph.bounds, graph.loads = [bound] * loops, [load(i) for i in range(loops)]
    value, solved = answer(graph.problem("value"))
    found = [title, f"{graph.nodes} nodes", f"{len(graph.edges)} edges", counts[0], value[0]]
    alone = graph.read_alone(True) if timed else 0
    if timed:
        found += [f"loops and blocks in {milliseconds(counted, graph.read_alone(False))}", f"the greatest walk in {milliseconds(solved, alone)}"]
    if checked:
        shown, took = answer(graph.problem("index", *section_of(graph)))
        found.append("shown" if shown == value else f"check: {shown[0]}")
        if timed:
            found.append(f"checked in {milliseconds(took, alone)}")
    print("; ".join(found), flush=True)


def measure_interleaved(loops, size, crossed, timed):
    row = interleaved(loops, size, crossed)
    shown, took = answer(row)
    alone = answer(row.replace("| 3 3", "| 3", 1))[1] if timed else 0
    print(f"interleaved loops; {loops} loops; {shown[0]}" + (f"; checked in {milliseconds(took, alone)}" if timed else ""), flush=True)


def main():
    timed = sys.argv[1:] != ["small"]
    shapes = [(601, 60, 3, 2, True)]
    if timed:
        shapes = [(5000, 45, 9, 2, True), (65535, 655, 10, 2, True), (65535, 65535, 1000, 0, False), (65535, 13, 1, 2, True), (65534, 3, 1, 2, True), (50000, 499, 10, 2, True)]
    for instructions, group, depth, bound, checked in shapes:
        measure(f"method of {instructions} instructions", method(instructions, group, depth), bound, lambda i: i % 3, checked, timed)
    chains = [("loops apart", chain(16383, 4, 1)), ("switch", switch(2400)), ("deep loops", chain(682, 96, 12))] if timed else [("loops apart", chain(3, 8, 2))]
    for title, graph in chains:
        measure(title, graph, 1, lambda i: 0, True, timed)
    for crossed in (False, True):
        measure_interleaved(*((1310, 40) if timed else (4, 5)), crossed, timed)


main()
