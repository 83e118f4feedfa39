"""Certificates: potentials that show the numbers of a program's methods. Their texts are those of `tools/rechecker`.

A section is its kind, its method, its nodes with their potentials, and its loops: the word `loop` or `region`, the header, what an iteration costs at most, the members.
Node 2p is the instruction at place p, node 2p + 1 the raise step there.
"""
import os
import sys

sys.path.append(os.path.dirname(os.path.abspath(__file__)))
from study import MOST  # noqa: E402
from rechecker.command import Answered, check_program  # noqa: E402
from rechecker.conditions import check  # noqa: E402, F401
from rechecker.texts import Certificate, Section, number_of, read_certificate, shown  # noqa: E402, F401
from walks import Walks  # noqa: E402

def answer(program, timing, bounds, text):
    """the line that `check` answers for a linked image, by the bytes of the bounds and the text of a certificate"""
    try:
        return check_program(program, timing, bounds, text.encode('latin-1'))
    except Answered as other:
        return other.line


# ---- made


def potentials(walks):
    """the greatest cost from each node on, where each iteration of a loop is paid at the loop's entry: the least numbers that suffice"""
    found = {}
    while True:
        before = dict(found)
        for u in reversed(walks.order):
            ways = [0] if u in walks.graph.exits else []
            for v in walks.after[u]:
                if v in found:
                    back = walks.is_back(u, v)
                    ways.append(found[v] + (-walks.turns[v] if back else walks.entering(v)))
            if ways:
                found[u] = walks.cost[u] + max(ways)
        if found == before:
            return found


class Maker:
    """makes the sections of a certificate, those of what a method calls before its own"""

    def __init__(self, study, version):
        self.study, self.version, self.sections, self.values = study, version, [], {}

    def made(self, root):
        """the certificate of a method, or none where a number of it passes its range"""
        full = self.full(root)
        bound = self.study.printed_with(full)
        certificate = Certificate(self.version, root, self.sections, bound)
        return certificate if self.is_in_range(bound) else None

    def is_in_range(self, bound):
        numbers = [p for section in self.sections for _, p in section.nodes] + [loop[2] for section in self.sections for loop in section.loops]
        return all(-MOST <= each <= MOST for each in [*numbers, bound or 0, *(value or 0 for value in self.values.values())])

    def full(self, m):
        """the number of a method with all loads"""
        fits = self.study.region_fits(m)
        value = self.value(fits, m)
        return None if value is None else value + (self.study.loads(self.study.region(m)) if fits else self.study.load(m))

    def back(self, m, t):
        full = self.full(t)
        return None if full is None else full + self.study.load(m)

    def value(self, inside, m):
        """the value of a section of a method, which is made first"""
        if (inside, m) not in self.values:
            self.values[inside, m] = self.section(inside, m)
        return self.values[inside, m]

    def section(self, inside, m):
        """makes a section, and gives its value"""
        study = self.study
        kind = 'inside' if inside else 'alone' if self.version == 1 else 'loops'
        graph, loops = study.live(m)
        charged = study.charged(m) if kind == 'loops' else {}
        within = {u for h in charged for u in loops[h]}

        def called(u):
            return (lambda t: self.value(True, t)) if inside or u in within else (lambda t: self.back(m, t))
        cost = {u: study.own(m, u) + study.added(m, u, called(u)) for u in graph.nodes}
        fee = {h: study.loads(charged[h]) if h in charged else 0 for h in loops}
        walks = Walks(graph, cost, loops, {h: study.bound(m, h[0]) for h in loops}, fee)
        found = potentials(walks)
        nodes = [(number_of(u), found[u]) for u in sorted(found)]
        held = [('region' if h in charged else 'loop', 2 * h[0], walks.turns[h], sorted(map(number_of, loops[h]))) for h in sorted(walks.loops)]
        self.sections.append(Section(kind, m, nodes, held))
        return found[graph.nodes[0]] + walks.entering(graph.nodes[0]) if graph.nodes[0] in found else None
