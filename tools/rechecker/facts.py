"""Facts of how often places of methods are visited: their text, and what it says of a program (docs/assessing.md, "Facts"). Not proved: a tool.

A fact is known by its method, its node as a number, and its scope: None for an activation, or the place of a loop's header.
"""
import re

from .costs import COSTS
from .graphs import Graph
from .texts import MOST_BOUND, lines_of, number_of

NUMBER = re.compile(b'0|[1-9][0-9]*')


def number(word):
    """the number that a word writes, none where it writes none"""
    return int(word) if NUMBER.fullmatch(word) and int(word) <= MOST_BOUND else None


class Line:
    """what a line says: a name, a place with whether it is a raise step, a number, and words of a scope or targets"""

    def __init__(self, name, place, is_raise, most, scope):
        self.name, self.place, self.is_raise, self.most, self.scope = name, place, is_raise, most, scope

    def subject(self):
        """what a text says once"""
        return self.name, self.place, self.is_raise, self.scope if self.most is not None else ('only',)

    def is_own(self):
        """whether it counts in activations of the method that it names"""
        return self.most is not None and self.scope[:1] != (b'in',)


def read_line(line):
    """what the words of a line say, none where they are none of the grammar"""
    words = line.split(b' ')
    if len(words) < 3 or not words[0]:
        return None
    if words[2] == b'only':
        return read_only(words)
    is_raise = words[1].endswith(b'r')
    place, most = number(words[1].removesuffix(b'r')), words[2].startswith(b'total<=') and number(words[2][len(b'total<='):])
    scope = scope_of(words[3:])
    if place is None or most is None or most is False or scope is None:
        return None
    return Line(words[0], place, is_raise, most, scope)


def read_only(words):
    """an invoke and the methods that it runs, each once"""
    place, targets = number(words[1]), words[3:]
    if place is None or not targets or not all(targets) or len(set(targets)) < len(targets):
        return None
    return Line(words[0], place, False, None, tuple(targets))


def scope_of(words):
    """nothing, a loop's header or a root, none where the words are none of these"""
    if not words:
        return ()
    if len(words) == 2 and words[0] == b'per' and number(words[1]) is not None:
        return b'per', number(words[1])
    return tuple(words) if len(words) == 2 and words[0] == b'in' and words[1] else None


def read_facts(text):
    """the lines of a text that say something, with their numbers, or what is said of the first line that is refused"""
    found, seen = [], set()
    for count, line in enumerate(lines_of(text), 1):
        if not line or line.startswith(b'#'):
            continue
        read = read_line(line)
        if read is None:
            return 'bad facts line=%d' % count
        if read.subject() in seen:
            return 'twice fact line=%d' % count
        seen.add(read.subject())
        found.append((count, read))
    return found


def facts_of(program, lines):
    """the greatest numbers by method, node and scope, or what is said of the first line that says nothing of the program"""
    other = next((count for count, line in lines if not line.is_own()), None)
    if other is not None:
        return 'bad facts line=%d' % other
    methods = {name.encode('utf-8', 'surrogateescape'): m for m, name in enumerate(program.names)}
    found, loops = {}, {}
    for count, line in lines:
        m = methods.get(line.name)
        if m is None or not is_node(program, m, line) or not is_in_scope(program, m, line, loops):
            return 'no such fact line=%d' % count
        header = line.scope[1] if line.scope else None
        found[m, number_of((line.place, line.is_raise)), header] = line.most
    return found


def is_node(program, m, line):
    """whether an instruction of the method begins at the place, and may raise where the line is of its raise step"""
    op = program.starts(m).get(line.place)
    return op is not None and (not line.is_raise or op in COSTS.raises)


def is_in_scope(program, m, line, loops):
    """whether the loop of the header that the line names has the node"""
    if not line.scope:
        return True
    key = m, line.scope[1]
    if key not in loops:
        loops[key] = members(Graph(program.body(m)), (line.scope[1], False))
    return (line.place, line.is_raise) in loops[key]


def members(graph, header):
    """the nodes of the loop that a header has in a graph, none where it heads none"""
    if header not in graph.after:
        return set()
    around = reached({(0, False)} - {header}, graph.after, header)
    before = {}
    for u, v in graph.edges:
        before.setdefault(v, []).append(u)
    sources = {u for u in before.get(header, []) if u not in around}
    return reached(sources - {header}, before, header) | {header} if sources else set()


def reached(first, after, header):
    """what is reached from nodes without the header"""
    seen, todo = set(first), list(first)
    while todo:
        for v in after.get(todo.pop(), []):
            if v != header and v not in seen:
                seen.add(v)
                todo.append(v)
    return seen
