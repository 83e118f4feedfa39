"""How many words a run needs at most, of class files, bounds of loops and lengths of arrays alone: the words of frames over chains of calls, those of the image, and those
of the objects that a walk through the method that starts the program makes.

Graphs and loops are those of ../graphs/flow.py, the greatest walk that of ../bounds/walks.py, places of arrays of constant length are read here.
"""
import os
import re
import sys

HERE = os.path.dirname(os.path.abspath(__file__))
sys.path[:0] = [os.path.join(HERE, '../bounds'), os.path.join(HERE, '../graphs'), os.path.join(HERE, '../loops')]
import counted  # noqa: E402
import flow  # noqa: E402
from rechecker.class_files import class_name  # noqa: E402
from rechecker.texts import MOST, NUMBER, lines_of, read_bounds  # noqa: E402, F401
from walks import Walks  # noqa: E402

NEW, NEWARRAY, ANEWARRAY, LONGS = 187, 188, 189, 11
SIZE = re.compile(b'([^ \n]+) %b length<=%b' % (NUMBER.encode(), NUMBER.encode()))
MOST_PLACE, MOST_LENGTH = 2**32 - 1, 2**31 - 1
# The words of a frame beside its locals and its operands.
FRAME = 5


def read_sizes(text):
    """the lengths of a text by name and place, or what is said of the first line that is refused"""
    sizes = {}
    for number, line in enumerate(lines_of(text), 1):
        if not line or line.startswith(b'#'):
            continue
        found = SIZE.fullmatch(line)
        if not found or int(found[2]) > MOST_PLACE or int(found[3]) > MOST_LENGTH:
            return 'bad sizes line=%d' % number
        key = found[1].decode('utf-8', 'surrogateescape'), int(found[2])
        if key in sizes:
            return 'twice size line=%d' % number
        sizes[key] = int(found[3])
    return sizes


class Every:
    """a graph of which a walk may stop at any node"""

    def __init__(self, graph):
        self.nodes, self.after, self.before, self.exits = graph.nodes, graph.after, graph.before, graph.nodes


class Need:
    """what a program needs, by bounds and lengths"""

    def __init__(self, program, bounds, sizes):
        self.program, self.bounds, self.sizes = program, bounds, sizes
        self.boot = next(m for m in range(len(program.coded)) if program.coded[m][0] == len(program.classes) - 1)
        self.region = program.region(self.boot)
        self.graph = {m: flow.Graph(program.body(m)) for m in self.region}
        self.code = {m: counted.Code(program, m) for m in self.region}
        self.making = self.methods_that_make()
        self.known = {}

    # ---- what makes objects

    def makes(self, m, node, making):
        """whether a node makes objects, where these methods do"""
        place, is_raise = node
        return not is_raise and (self.code[m].op[place] in (NEW, NEWARRAY, ANEWARRAY) or any(t in making for t in self.program.called[m].get(place, [])))

    def methods_that_make(self):
        """the least set of methods such that each has a node that makes objects"""
        making = set()
        while True:
            more = {m for m in self.region if m not in making and any(self.makes(m, node, making) for node in self.graph[m].nodes)}
            if not more:
                return making
            making |= more

    def making_loops(self, m):
        """the headers of the loops that make objects, rising"""
        loops = self.graph[m].loops()
        return [h for h in sorted(loops) if any(self.makes(m, node, self.making) for node in loops[h])]

    def length(self, m, place):
        """the length of the array that an instruction makes, or none"""
        code = self.code[m]
        constant = code.constant(code.before[place]) if place in code.before and not code.is_targeted(place) else None
        return self.sizes.get((self.program.names[m], place)) if constant is None else constant

    # ---- words

    def stack(self, m):
        """the greatest sum of the words of frames over chains of calls from a method on"""
        if ('stack', m) not in self.known:
            body = self.program.body(m)
            self.known['stack', m] = body['locals'] + body['stack'] + FRAME + max((self.stack(t) for t in self.program.runs[m]), default=0)
        return self.known['stack', m]

    def words(self, m, node):
        """the words of what a node makes"""
        place, is_raise = node
        if is_raise:
            return 0
        code = self.code[m]
        if code.op[place] == NEW:
            return self.program.image.object_words(self.program.image.number[class_name(code.each, code.index[place])])
        if code.op[place] in (NEWARRAY, ANEWARRAY):
            length = self.length(m, place)
            is_long = code.op[place] == NEWARRAY and code.code[place + 1] == LONGS
            return 0 if length < 0 else 2 + length * (2 if is_long else 1)
        return max((self.heap(t) for t in self.program.called[m].get(place, [])), default=0)

    def heap(self, m):
        """the greatest sum of words over walks that may stop anywhere"""
        if ('heap', m) not in self.known:
            graph, loops = Every(self.graph[m]), self.graph[m].loops()
            cost = {node: self.words(m, node) for node in graph.nodes}
            making = set(self.making_loops(m))
            bound = {h: self.bounds[self.program.names[m], h[0]] if h in making else 0 for h in loops}
            self.known['heap', m] = Walks(graph, cost, loops, bound, dict.fromkeys(loops, 0)).greatest() or 0
        return self.known['heap', m]

    # ---- answers

    def cause(self):
        """why no need is given, or none"""
        names, cycle = self.program.names, self.program.cycles(self.boot)
        if cycle is not None:
            return 'recursion' if cycle == 'several' else ' '.join(['recursion', *(names[m] for m in cycle)])
        for m in self.region:
            if self.graph[m].loops() is None:
                return ' '.join(['irreducible', names[m], *(str(place) for place, _ in self.graph[m].reduced())])
        for m in self.region:
            for place, _ in self.making_loops(m):
                if (names[m], place) not in self.bounds:
                    return 'missing bound %s %d' % (names[m], place)
        for m in self.region:
            for place, is_raise in self.graph[m].nodes:
                if not is_raise and self.code[m].op[place] in (NEWARRAY, ANEWARRAY) and self.length(m, place) is None:
                    return 'missing size %s %d' % (names[m], place)
        return next(('too large ' + names[m] for m in self.region if self.heap(m) > MOST), None)

    def line(self):
        cause = self.cause()
        if cause is not None:
            return 'memory: ' + cause
        self.program.image.lay()
        return 'memory stack=%d image=%d heap=%d' % (self.stack(self.boot), self.program.image.total, self.heap(self.boot))


def line_of(main, files, bounds, sizes):
    """what `jop memory` says of the texts of bounds and lengths"""
    bounds = read_bounds(bounds)
    if isinstance(bounds, str):
        return bounds
    sizes = read_sizes(sizes)
    if isinstance(sizes, str):
        return sizes
    return Need(counted.Program(main, files), bounds, sizes).line()
