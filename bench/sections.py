"""Sections of certificates, for graphs whose edges to earlier nodes all go back to headers of loops.

Node 2p is the instruction at place p, node 2p + 1 the raise step there.
"""
import os
import sys

from timing import TOP

sys.path[:0] = [os.path.join(TOP, 'tests/expected', part) for part in ('graphs', 'bounds')]
import flow  # noqa: E402
from certificate import Certificate, Section  # noqa: E402
from made import MAIN, ClassFile  # noqa: E402
from study import COSTS  # noqa: E402

RETURN = b'\xb1'


class Graph:
    """the nodes that are reached, with their costs, what follows each, and the exits; it begins with some nodes alone"""

    def __init__(self, timing, cost=(), after=()):
        self.timing, self.cost, self.after, self.exits = timing, dict(cost), dict(after), set()

    def add(self, place, op, following, added=0, handlers=(), entries=0):
        """adds an instruction that goes on at places, and adds so much to its cost, and its raise step, where the method has so many exception entries"""
        u = 2 * place
        self.cost[u] = COSTS.instruction(op, self.timing) + added
        self.after[u] = [2 * each for each in following]
        if op in flow.RETURNS:
            self.exits.add(u)
        if op in flow.RAISING:
            self.after[u].append(u + 1)
            self.cost[u + 1] = COSTS.raise_step(self.timing, entries)
            self.after[u + 1] = [2 * each for each in handlers]
            self.exits.add(u + 1)

    def turns(self, loops, bound, fee):
        """the greatest turn of each loop, with inner ones' entries, and what each entry costs; a loop is a header with its members, rising"""
        turn, entry = {}, {}
        for header in sorted(loops, key=lambda header: len(loops[header])):
            members, best, turn[header] = set(loops[header]), {header: 0}, 0
            for u in loops[header]:
                came = best[u] + self.cost[u]
                for v in self.after[u]:
                    if v == header:
                        turn[header] = max(turn[header], came)
                    elif v > u and v in members:
                        best[v] = max(best.get(v, 0), came + entry.get(v, 0))
            entry[header] = bound * turn[header] + fee
        return turn, entry

    def potentials(self, turn, entry):
        """the least potentials that suffice"""
        found, before = {}, None
        while before != found:
            before = dict(found)
            for u in sorted(self.cost, reverse=True):
                ways = [0] if u in self.exits else []
                ways += [found[v] + (entry.get(v, 0) if v > u else -turn[v]) for v in self.after[u] if v in found]
                found[u] = self.cost[u] + max(ways)
        return found

    def section(self, kind, method, loops=(), fee=0, more=0):
        """a section and its value, where each loop is turned once and is a region where it has a fee; potentials may be greater by some number"""
        loops = dict(loops)
        turn, entry = self.turns(loops, 1, fee)
        found = self.potentials(turn, entry)
        word = 'region' if fee else 'loop'
        held = [(word, header, turn[header], loops[header]) for header in sorted(loops)]
        made = Section(kind, method, [(u, found[u] + more) for u in sorted(found)], held)
        return made, found[0] + entry.get(0, 0) + more


def straight(timing, instructions):
    """the graph of a code without branches, of which each instruction is its opcode, its length and what its call adds"""
    graph, place = Graph(timing), 0
    for op, length, added in instructions:
        graph.add(place, op, [] if op in flow.RETURNS else [place + length], added)
        place += length
    return graph


def load(timing, code):
    return COSTS.load(timing, -(-len(code) // 4))


# The smallest program, to tell what all have.
SMALL = ClassFile('A')
SMALL.method(9, 'main', MAIN, (0, 1, RETURN, [], []))
PROGRAM = flow.Program('A', [SMALL.data()])
# The number of the first method of the first class file.
FIRST = PROGRAM.names.index('A.main' + MAIN)


def certificate(sections, root, full, timing, codes):
    """the text of a certificate of a program whose files have these codes, and whose root has this number with all loads"""
    greatest = max(load(timing, code) for code in [*codes, *(PROGRAM.body(n)['code'] for n in range(len(PROGRAM.coded)))])
    bound = COSTS.greatest_invoke(timing) + full + greatest
    return Certificate(2, root, sections, bound).text().encode()
