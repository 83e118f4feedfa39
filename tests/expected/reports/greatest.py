"""How often a greatest walk of a method visits its nodes and enters its loops, and whether any greatest walk does it so often.

Walks are those of ../bounds/walks.py, where an entry of a loop pays all its turns: the nodes from the first to an exit are found backwards, by the edges along which the greatest cost is
reached, and so are those of one turn of each loop. Where two such edges lead to a node, there are several greatest walks.
"""


class Counts:
    """the visits of each node and the entries of each loop, by its header; `sole` says that no other greatest walk has other ones"""

    def __init__(self, walks):
        self.walks, self.sole = walks, True
        self.visits = {u: 0 for u in walks.ending}
        self.entries = {h: 0 for h in walks.loops}
        first = walks.first
        if first in walks.loops:
            self.entries[first] += 1
        self.take(first, walks.ending, walks.entering(first), walks.graph.exits, 1)
        for h in reversed(walks.inner_first):
            members = walks.loops[h]
            self.take(h, members, 0, [u for u in walks.graph.before[h] if u in members], self.entries[h] * walks.bound[h])
        assert self.cost() == walks.greatest()

    def cost(self):
        """what the walk costs, by its counts"""
        walks = self.walks
        return sum(n * walks.cost[u] for u, n in self.visits.items()) + sum(n * walks.fee[h] for h, n in self.entries.items())

    def take(self, start, among, came, ends, times):
        """takes the nodes of a dearest way from a node to one of these so many times"""
        if times:
            way = self.way(start, among, came, ends)
            for u in way:
                self.visits[u] += times
            for u, v in zip(way, way[1:]):
                if self.enters(u, v):
                    self.entries[v] += times

    def enters(self, u, v):
        return v in self.walks.loops and u not in self.walks.loops[v]

    def way(self, start, among, came, ends):
        """the nodes of a dearest way from a node to one of these, by edges that are no back edges"""
        walks, best = self.walks, self.walks.longest(start, among, came)
        behind = {u: best[u] + walks.cost[u] for u in best if u in among}
        most = max(behind[u] for u in ends if u in behind)
        way = [self.one_of(u for u in ends if behind.get(u) == most)]
        while way[0] != start:
            v = way[0]
            way.insert(0, self.one_of(u for u in walks.graph.before[v] if u in behind and not walks.is_back(u, v) and behind[u] + self.fee(u, v) == best[v]))
        return way

    def fee(self, u, v):
        """what an edge costs beside the nodes"""
        return self.walks.entering(v) if self.enters(u, v) else 0

    def one_of(self, nodes):
        """the least of these; of several, others are as dear"""
        found = sorted(set(nodes))
        self.sole = self.sole and len(found) == 1
        return found[0]
