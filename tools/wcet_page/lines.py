"""The methods of an image with the lines of their sources, their calls and their loops (JVM Specification SE 8, 4.7.10, 4.7.12). Not proved: a tool.

Which loops there are, and of which lines, `jop headers` says; here stands what it doesn't: the lines of calls, and the nodes
of loops, by which runs are watched.
"""
from functools import lru_cache

from rechecker.graphs import Graph
from rechecker.images import LinkedImage
from rechecker.names import written
from rechecker.program import Program


class Methods:
    """the methods with code of an image, by number"""

    def __init__(self, data):
        image = LinkedImage(data)
        self.files = image.files
        self.program = Program(image.main, image.files)
        self.names = self.program.names
        self.number = {name: m for m, name in enumerate(self.names)}
        self.boot = len(self.names) - 1
        self.tables = [self.table(m) for m in range(len(self.names))]

    def is_own(self, m):
        """whether it is of the class files that were handed in"""
        return self.program.is_own(m) and m != self.boot

    def class_of(self, m):
        return self.program.classes[self.program.coded[m][0]]

    def own_classes(self):
        return self.program.classes[self.program.first_own:-1]

    def table(self, m):
        return table_of(self.program.body(m), self.class_of(m))

    def file(self, m):
        return source_file(self.class_of(m))

    def line(self, m, place):
        return line_in(self.tables[m], place)

    def at(self, m, place=0):
        """the file and the line of a place, none where the class file doesn't tell them"""
        file, line = self.file(m), self.line(m, place)
        return (file, line) if file is not None and line is not None else None

    def lines(self, m):
        return sorted({line for _, line in self.tables[m]})

    def call_place(self, m, target):
        """the first place at which a method may call another"""
        return next(place for place, targets in sorted(self.program.called[m].items()) if target in targets)

    def loops(self, m, headers):
        """the nodes of the loops with these headers, by header: all from which a back edge is reached without the header"""
        graph, before = self.graph(m)
        return {place: members((place, False), graph, before) for place in headers if (place, False) in graph.after}

    def back(self, m, header, nodes):
        """the nodes of a loop from which an edge goes back to its header"""
        return [node for node in self.graph(m)[1].get((header, False), []) if node in nodes]

    @lru_cache(None)
    def graph(self, m):
        """the graph of a method, and from where its edges come, by node"""
        graph, before = Graph(self.program.body(m)), {}
        for u, v in graph.edges:
            before.setdefault(v, []).append(u)
        return graph, before


def table_of(body, c):
    """where lines start in the code of a method of a class, in the order of its tables: places and lines"""
    tables = [data for name, data in attributes_of(body.get("attributes", b"\0\0"), c.pool) if name == b"LineNumberTable"]
    return [start for data in tables for start in starts_of(data)]


def line_in(table, place):
    """the line of a place: that of the nearest start in front of it, or at it"""
    starts = [(start, order, line) for order, (start, line) in enumerate(table) if start <= place]
    return max(starts)[2] if starts else None


def line_at(method, c, place):
    """the line of a place of a method of a class that isn't linked"""
    return line_in(table_of(method["code"], c), place)


def members(header, graph, before):
    """the nodes of the loop with a header"""
    outside, todo = {header}, [(0, False)]
    while todo:  # what is reached without the header: an edge from elsewhere to the header is a back edge
        node = todo.pop()
        if node not in outside:
            outside.add(node)
            todo += graph.after[node]
    outside.discard(header)
    found, todo = {header}, [u for u in before.get(header, []) if u not in outside]
    while todo:
        node = todo.pop()
        if node not in found:
            found.add(node)
            todo += before.get(node, [])
    return found


def attributes_of(data, pool):
    """the names and the bytes of a list of attributes"""
    at = 2
    for _ in range(int.from_bytes(data[:2], "big")):
        name, size = pool[int.from_bytes(data[at:at + 2], "big")][1], int.from_bytes(data[at + 2:at + 6], "big")
        yield name, data[at + 6:at + 6 + size]
        at += 6 + size


def starts_of(data):
    """the starts of a table, none where the bytes aren't one"""
    count = int.from_bytes(data[:2], "big")
    if len(data) < 2 or len(data) != 2 + 4 * count:
        return []
    return [(int.from_bytes(data[at:at + 2], "big"), int.from_bytes(data[at + 2:at + 4], "big")) for at in range(2, len(data), 4)]


def source_file(c):
    """the source of a class, in the folder of its package, or none"""
    data = next((data for name, data in c.attributes if name == b"SourceFile"), b"")
    entry = c.pool[int.from_bytes(data, "big")] if len(data) == 2 and int.from_bytes(data, "big") < len(c.pool) else None
    if entry is None or entry[0] != 1:
        return None
    return written(c.name[:c.name.rfind(b"/") + 1] + entry[1])
