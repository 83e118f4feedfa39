"""The greatest cost of a walk from the first node to an exit, where each loop takes at most so many back edges in each stay, and each entry of a loop costs a fee.

Two ways. One visits the nodes together with the numbers of back edges that were taken in the loops around: these have no cycle. The other lets an entry pay all turns
of its loop at once. Where the first has at most `STATES` states, both are done, and have to agree.
"""
STATES = 4000


class Walks:
    """walks of a graph; `loops` has the members of each header's loop, `bound` and `fee` a number for each header"""

    def __init__(self, graph, cost, loops, bound, fee):
        self.first, self.graph = graph.nodes[0], graph
        self.ending = reaching(graph)
        self.cost, self.bound, self.fee = cost, bound, fee
        self.loops = {h: set(members) for h, members in loops.items() if h in self.ending}
        self.inner_first = sorted(self.loops, key=lambda h: len(self.loops[h]))
        self.after = {u: [v for v in graph.after[u] if v in self.ending] for u in self.ending}
        self.order = self.sorted_nodes()
        self.turns = {}
        for h in self.inner_first:
            self.turns[h] = self.turn(h)

    # ---- all turns at once

    def is_back(self, u, v):
        return v in self.loops and u in self.loops[v]

    def sorted_nodes(self):
        """the nodes, each before those to which its edges lead, but for back edges"""
        done, order = set(), []
        for root in self.ending:
            todo = [(root, iter(self.after[root]))] if root not in done else []
            done.add(root)
            while todo:
                u, rest = todo[-1]
                v = next((v for v in rest if v not in done and not self.is_back(u, v)), None)
                if v is None:
                    order.append(u)
                    todo.pop()
                else:
                    done.add(v)
                    todo.append((v, iter(self.after[v])))
        return order[::-1]

    def entering(self, h):
        """what the entry of the loop of a header costs with all turns; of another node nothing"""
        return self.bound[h] * self.turns[h] + self.fee[h] if h in self.loops else 0

    def longest(self, start, among, came):
        """the greatest cost from a node on to each node, that node left out, by edges that are no back edges"""
        best = {start: came}
        for u in self.order:
            if u in best and u in among:
                for v in self.after[u]:
                    if v in among and not self.is_back(u, v):
                        entry = self.entering(v) if v in self.loops and u not in self.loops[v] else 0
                        best[v] = max(best.get(v, 0), best[u] + self.cost[u] + entry)
        return best

    def turn(self, h):
        """the greatest cost of a walk from a header to a back edge of its loop, the fee of that loop left out"""
        best = self.longest(h, self.loops[h], 0)
        return max(best[u] + self.cost[u] for u in self.loops[h] if u in best and h in self.after[u])

    def at_once(self):
        if self.first not in self.ending:
            return None
        best = self.longest(self.first, self.ending, self.entering(self.first))
        return max(best[u] + self.cost[u] for u in self.graph.exits if u in best)

    # ---- with counts

    def around(self, u):
        """the headers of the loops that hold a node, outer loops first"""
        return [h for h in reversed(self.inner_first) if u in self.loops[h]]

    def states(self, counts):
        """how many states there may be"""
        total = 0
        for u in self.ending:
            number = 1
            for h in self.around(u):
                number *= self.bound[h] + 1
            total += number
        return total

    def following(self, state):
        """the states behind one, each with what the step costs beside the nodes"""
        u, counts = state
        before = dict(zip(self.around(u), counts))
        for v in self.after[u]:
            after, paid = [], 0
            for h in self.around(v):
                if h not in before:
                    paid += self.fee[h]
                after.append(before.get(h, 0) + (h == v and h in before))
            if all(count <= self.bound[h] for h, count in zip(self.around(v), after)):
                yield (v, tuple(after)), paid

    def by_counts(self):
        if self.first not in self.ending:
            return None
        start = (self.first, tuple(0 for _ in self.around(self.first)))
        best, exits = {}, set(self.graph.exits)
        todo = [(start, list(self.following(start)))]
        while todo:
            state, steps = todo[-1]
            waiting = next((each for each, _ in steps if each not in best), None)
            if waiting is not None:
                todo.append((waiting, list(self.following(waiting))))
                continue
            todo.pop()
            rest = [paid + best[each] for each, paid in steps if best[each] is not None] + ([0] if state[0] in exits else [])
            best[state] = self.cost[state[0]] + max(rest) if rest else None
        return best[start] + sum(self.fee[h] for h in self.around(self.first))

    def greatest(self):
        """the greatest cost, or none where no exit is reached"""
        value = self.at_once()
        if self.states({}) <= STATES:
            assert value == self.by_counts(), 'two ways to the greatest walk differ'
        return value

    def greatest_turns(self):
        """the greatest sum of a turn of a loop and of one of each loop around it, or 0"""
        return max((sum(self.turns[k] for k in self.around(h)) for h in self.loops), default=0)


def reaching(graph):
    """the nodes from which an exit is reached"""
    seen, todo = set(), list(graph.exits)
    while todo:
        u = todo.pop()
        if u not in seen:
            seen.add(u)
            todo += graph.before[u]
    return seen
