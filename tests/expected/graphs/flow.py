"""Graphs of methods, their loops, what calls may run, regions and orders, worked out from class files alone (JVM Specification SE 8).

Nodes, edges, exits and targets of calls are those of `tools/rechecker`; the rest is here. A node is a place and whether it is the raise step there.
Nothing here is made as the product makes it: dominators are found by leaving a node out, the loops are those of back edges, and the
reduction of a graph merges nodes in any order.
"""
import os
import sys

sys.path.append(os.path.join(os.path.dirname(os.path.abspath(__file__)), '../images'))
import expected_image  # noqa: E402, F401
from rechecker import graphs, program  # noqa: E402
from rechecker.class_files import instructions  # noqa: E402, F401
from rechecker.costs import COSTS  # noqa: E402
from rechecker.graphs import RETURNS  # noqa: E402, F401

RAISING = COSTS.raises


class Graph(graphs.Graph):
    """the graph with the nodes before each, and its loops"""

    def __init__(self, body, stopped=()):
        super().__init__(body, stopped)
        self.before = {u: [] for u in self.nodes}
        for u, v in self.edges:
            self.before[v].append(u)

    def dominated(self, node):
        """the nodes that are reached through this one alone"""
        seen, todo = set(), [self.nodes[0]]
        while todo:
            u = todo.pop()
            if u not in seen and u != node:
                seen.add(u)
                todo += self.after[u]
        return set(self.nodes) - seen

    def loops(self):
        """the members of the loop of each header, or none where a cycle has no back edge"""
        dominated = {h: self.dominated(h) for h in self.nodes}
        back = {(u, h) for u, h in self.edges if u in dominated[h]}
        if self.has_cycle_without(back):
            return None
        found = {}
        for u, h in back:
            members, todo = found.setdefault(h, {h}), [u]
            while todo:
                x = todo.pop()
                if x not in members:
                    members.add(x)
                    todo += self.before[x]
        return {h: sorted(found[h]) for h in sorted(found)}

    def has_cycle_without(self, left_out):
        """whether the edges but for these have a cycle: nodes without a successor are taken away, as long as there are some"""
        count = {u: sum((u, v) not in left_out for v in self.after[u]) for u in self.nodes}
        todo, gone = [u for u in self.nodes if count[u] == 0], 0
        while todo:
            v, gone = todo.pop(), gone + 1
            for u in self.before[v]:
                if (u, v) not in left_out:
                    count[u] -= 1
                    if count[u] == 0:
                        todo.append(u)
        return gone < len(self.nodes)

    def reduced(self):
        """the nodes but the first that are left where a node that is entered from one other alone is merged into that, for as long as there is one"""
        first = self.nodes[0]
        before = {u: {x for x in self.before[u] if x != u} for u in self.nodes}
        while True:
            merged = next((u for u in reversed(self.nodes) if u in before and u != first and len(before[u]) == 1), None)
            if merged is None:
                return sorted(set(before) - {first})
            into, = before.pop(merged)
            for u in before:
                if merged in before[u]:
                    before[u] = (before[u] - {merged} | {into}) - {u}


def around(loops, header):
    """the header of the next loop around a loop"""
    outer = [h for h in loops if h != header and set(loops[header]) < set(loops[h])]
    return min(outer, key=lambda h: len(loops[h])) if outer else None


class Program(program.Program):
    """the program of class files, with the cycles of its calls"""

    def cycles(self, root):
        """none where no method within the root calls itself, over others or not; else the cycle where there is but one, from its least number on; else `several`"""
        on_cycle = {m for m in self.within([root]) if m in self.within(self.runs[m])}
        if not on_cycle:
            return None
        following = {m: [t for t in self.runs[m] if t in on_cycle and m in self.within([t])] for m in on_cycle}
        cycle = [min(on_cycle)]
        while len(following[cycle[-1]]) == 1 and following[cycle[-1]][0] != cycle[0] and len(cycle) <= len(on_cycle):
            cycle.append(following[cycle[-1]][0])
        is_one = len(cycle) == len(on_cycle) and all(len(each) == 1 for each in following.values())
        return cycle if is_one else 'several'
