"""How often loops go round in a run, places of facts are visited and instructions are run, counted in its trace. Not proved: a tool.

`jop trace` puts a line before each step. In a frame a loop is stayed in as long as the steps are at its nodes; each time that
its header comes again, a back edge was taken. An entry of a loop is a step to its header from elsewhere than its nodes.
"""
from collections import Counter
from functools import lru_cache


class Loop:
    """a loop that is watched, and the most back edges that were taken in one stay"""

    def __init__(self, key, header, nodes):
        self.key, self.header, self.nodes, self.most = key, (header, False), nodes, None


class Fact:
    """a fact of a record that is watched, and the most visits of its node in an activation, from an entry of a loop with these nodes to the next, or while
    a method runs"""

    def __init__(self, fact, node, nodes=()):
        self.fact, self.node, self.nodes, self.most = fact, node, nodes, None
        self.method, self.root = fact["method"], fact["root"]
        self.header = None if fact["per"] is None else (fact["per"], False)

    def see(self, count):
        self.most = max(self.most or 0, count)


class Frame:
    """an activation: the loops of its method, and how often each in which it stays went round; the facts of its method and those that count while it runs,
    each with how often it came"""

    def __init__(self, loops=(), facts=(), rooted=()):
        self.loops, self.counts, self.before = loops, [None] * len(loops), None
        self.facts, self.visits, self.rooted = facts, {fact: 0 for fact in facts if fact.header is None}, dict.fromkeys(rooted, 0)
        for fact in (*self.visits, *rooted):
            fact.see(0)

    def step(self, node):
        for k, loop in enumerate(self.loops):
            count = self.counts[k]
            if node not in loop.nodes:
                self.counts[k] = None
            elif count is None:
                self.counts[k] = 0
                loop.most = max(loop.most or 0, 0)
            elif node == loop.header:
                self.counts[k] = count + 1
                loop.most = max(loop.most or 0, count + 1)
        for fact in self.facts:
            self.visit(fact, node)
        self.before = node

    def visit(self, fact, node):
        """counts a step for a fact of the method; an entry of its loop begins anew, and nothing counts before the first"""
        if node == fact.header and self.before not in fact.nodes:
            self.visits[fact] = 0
            fact.see(0)
        if node == fact.node and fact in self.visits:
            self.visits[fact] += 1
            fact.see(self.visits[fact])


class Watched:
    """what is counted in a trace: turns of loops, whose nodes are given by name and header; visits of the nodes of facts; and how often instructions are run"""

    def __init__(self, loops, facts=()):
        self.loops = {name: [Loop((name, header), header, nodes) for header, nodes in found.items()] for name, found in loops.items()}
        self.facts, self.visits = list(facts), Counter()
        self.own = grouped(self.facts, lambda fact: None if fact.root else fact.method)
        self.rooted = grouped(self.facts, lambda fact: fact.root)
        self.within = grouped(self.facts, lambda fact: (fact.method, *fact.node) if fact.root else None)

    def count(self, steps):
        """counts the lines of a trace, and gives how many steps there were"""
        frames, total = [], 0
        for line in steps:
            _, _, step = line.partition(b" ")
            parts = step.rsplit(b" ", 4)
            if len(parts) < 5:  # a byte that is put out
                continue
            name, node, depth, total = text_of(parts[0]), (int(parts[1]), parts[2] == b"raise"), int(parts[3].partition(b"=")[2]), total + 1
            self.visits[name, *node] += 1
            del frames[depth:]
            while len(frames) < depth:
                frames.append(Frame(*(found.get(name, ()) for found in (self.loops, self.own, self.rooted))))
            if frames[-1].loops or frames[-1].facts:
                frames[-1].step(node)
            for fact in self.within.get((name, *node), ()):
                visit_within(frames, fact)
        return total

    def turns(self):
        """the most turns of each loop that was entered, by method's name and header"""
        return {loop.key: loop.most for found in self.loops.values() for loop in found if loop.most is not None}

    def kept(self):
        """the facts of the record that were seen, each with the most visits"""
        return [(fact.fact, fact.most) for fact in self.facts if fact.most is not None]

    def by_method(self):
        """how often each instruction was run, by its method's name and its place"""
        found = {}
        for (name, place, is_raise), count in self.visits.items():
            if not is_raise:
                found.setdefault(name, {})[place] = count
        return found


def visit_within(frames, fact):
    """counts a visit for a fact in each activation of its root that runs"""
    for frame in frames:
        if fact in frame.rooted:
            frame.rooted[fact] += 1
            fact.see(frame.rooted[fact])


def grouped(items, key_of):
    """lists of items by their keys, those without one left out"""
    found = {}
    for each in items:
        if key_of(each) is not None:
            found.setdefault(key_of(each), []).append(each)
    return found


@lru_cache(None)
def text_of(name):
    return name.decode("utf-8", "surrogateescape")


def by_line(places, line_of):
    """how often lines were run: the first instruction of each that was"""
    found = {}
    for place in sorted(places):
        line = line_of(place)
        if line is not None:
            found.setdefault(str(line), places[place])
    return found
