"""Numbers of methods, and the causes for which a bound is refused, worked out from class files, docs/costs.md and a text of bounds alone.

A node is a place and whether it is the raise step there, as in ../graphs/flow.py, which has graphs, targets and regions.
"""
import os
import sys

HERE = os.path.dirname(os.path.abspath(__file__))
sys.path.append(os.path.join(HERE, '../graphs'))
sys.path.append(HERE)
import flow  # noqa: E402
from costs import COSTS  # noqa: E402, F401
from rechecker.program import Priced  # noqa: E402
from rechecker.texts import MOST, read_bounds  # noqa: E402, F401
from walks import Walks  # noqa: E402


class Study(Priced):
    """a program with what its parts cost, where some loops have bounds"""

    def __init__(self, program, timing, bounds):
        super().__init__(program, timing, bounds)
        self.graphs, self.lives, self.known, self.walked = {}, {}, {}, {}
        self.ending = self.methods_that_end()

    # ---- graphs

    def graph(self, m):
        if m not in self.graphs:
            self.graphs[m] = flow.Graph(self.program.body(m))
        return self.graphs[m]

    def graph_where(self, m, goes_on):
        """the graph of a method where control goes on behind an invoke only where some target is one of these"""
        stopped = {place for place, targets in self.program.called[m].items() if not any(goes_on(place, t) for t in targets)}
        return flow.Graph(self.program.body(m), stopped)

    def methods_that_end(self):
        """the least set of methods such that an exit is reached where control goes on behind the invokes of its members"""
        ending = set()
        while True:
            more = {m for m in range(len(self.program.coded)) if m not in ending and self.graph_where(m, lambda place, t: t in ending).exits}
            if not more:
                return ending
            ending |= more

    def live(self, m):
        """the live graph of a method, and its loops"""
        if m not in self.lives:
            graph = self.graph_where(m, lambda place, t: t in self.ending)
            self.lives[m] = graph, graph.loops()
        return self.lives[m]

    def has_call(self, m, nodes):
        return any(not raised and place in self.program.called[m] for place, raised in nodes)

    def charged(self, m):
        """the headers of the charged loops of a method, each with its region"""
        _, loops = self.live(m)
        found = {}
        for h in sorted(loops, key=lambda h: -len(loops[h])):
            region = self.program.within_nodes(m, loops[h])
            inner = any(set(loops[h]) < set(loops[k]) for k in found)
            if self.has_call(m, loops[h]) and not inner and self.fit(region):
                found[h] = region
        return found

    # ---- numbers

    def added(self, m, node, value):
        """what the methods that a node may run add to its cost"""
        place, raised = node
        values = [] if raised else [value(t) for t in self.program.called[m].get(place, [])]
        return max((v for v in values if v is not None), default=0)

    def back(self, m, t):
        """the number of a target with all loads, and the load of the calling method"""
        full = self.full(t)
        return None if full is None else full + self.load(m)

    def walks(self, kind, m):
        """the walks of the live graph with the costs of a kind, `inside`, `alone` or `loops`"""
        if (kind, m) not in self.walked:
            graph, loops = self.live(m)
            charged = self.charged(m) if kind == 'loops' else {}
            within = {u for h in charged for u in loops[h]}
            cost = {}
            for u in graph.nodes:
                free = kind == 'inside' or u in within
                cost[u] = self.own(m, u) + self.added(m, u, self.inside if free else lambda t: self.back(m, t))
            bound = {h: self.bound(m, h[0]) for h in loops}
            fee = {h: self.loads(charged[h]) if h in charged else 0 for h in loops}
            self.walked[kind, m] = Walks(graph, cost, loops, bound, fee)
        return self.walked[kind, m]

    def number(self, kind, m):
        if (kind, m) not in self.known:
            self.known[kind, m] = self.walks(kind, m).greatest()
        return self.known[kind, m]

    def inside(self, m):
        return self.number('inside', m)

    def loops(self, m):
        return self.number('loops', m)

    def full(self, m):
        value, loads = (self.inside(m), self.loads(self.region(m))) if self.region_fits(m) else (self.loops(m), self.load(m))
        return None if value is None else value + loads

    def printed(self, m):
        return self.printed_with(self.full(m))

    # ---- causes

    def root(self, name):
        """the method of this name with code, the one that starts the program left out"""
        found = [m for m, each in enumerate(self.program.names) if each == name and self.program.coded[m][0] != len(self.program.classes) - 1]
        return found[0] if found else None

    def exceeds(self, root, m):
        """whether a number of a method, or a sum of turns, passes 64 bits"""
        kind = 'inside' if self.region_fits(m) else 'loops'
        full, printed = self.full(m), self.printed(m) if m == root else None
        return (full or 0) > MOST or (printed or 0) > MOST or self.walks(kind, m).greatest_turns() > MOST

    def cause(self, name):
        """why no bound of the method of a name is given, as it is printed, or none"""
        root = self.root(name)
        return 'no method' if root is None else self.cause_of(root)

    def cause_of(self, root):
        """why no bound of a method is given, or none"""
        cycle = self.program.cycles(root)
        if cycle is not None:
            return 'recursion' if cycle == 'several' else ' '.join(['recursion', *(self.program.names[m] for m in cycle)])
        region, names = self.region(root), self.program.names
        for m in region:
            if self.graph(m).loops() is None:
                return ' '.join(['irreducible', names[m], *(str(place) for place, _ in self.graph(m).reduced())])
        for m in region:
            for place, _ in self.graph(m).loops():
                if self.bound(m, place) is None:
                    return 'missing bound %s %d' % (names[m], place)
        for m in region:
            if self.exceeds(root, m):
                return 'too large ' + names[m]
        return None
