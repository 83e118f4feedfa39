"""Graphs of methods: where control goes from instructions and from the raise steps at them. Not proved: a tool.

A node is a place and whether it is the raise step there, so that nodes are in their order.
"""
from .class_files import instructions
from .costs import COSTS

CONDITIONS, JUMP, WIDE_JUMP = {*range(153, 167), 198, 199}, 167, 200
TABLE_SWITCH, LOOKUP_SWITCH, THROW = 170, 171, 191
RETURNS = {172, 173, 176, 177}


def number(code, at, size):
    return int.from_bytes(code[at:at + size], 'big', signed=True)


def pairs_of(code, place):
    """how many pairs a lookupswitch has; another instruction has none"""
    return number(code, (place // 4 + 1) * 4 + 4, 4) if code[place] == LOOKUP_SWITCH else 0


def successors(code, place, behind):
    """where the instruction at a place leads, raises apart; `behind` is the place of the next instruction"""
    op = code[place]
    if op in CONDITIONS:
        return {place + number(code, place + 1, 2), behind}
    if op == JUMP:
        return {place + number(code, place + 1, 2)}
    if op == WIDE_JUMP:
        return {place + number(code, place + 1, 4)}
    if op in (TABLE_SWITCH, LOOKUP_SWITCH):
        at = (place // 4 + 1) * 4
        cases = range(at + 12, behind, 4 if op == TABLE_SWITCH else 8)
        return {place + number(code, each, 4) for each in (at, *cases)}
    return set() if op in RETURNS or op == THROW else {behind}


class Graph:
    """the nodes that are reached from the first instruction, their edges and the exits, rising

    Behind an invoke at a place of `stopped` control doesn't go on.
    """

    def __init__(self, body, stopped=()):
        code, handlers = body['code'], body['handlers']
        starts = [at for at, _, _ in instructions(code)]
        behind = dict(zip(starts, starts[1:] + [len(code)]))

        def after(node):
            place, is_raise = node
            if is_raise:
                return {(handler, False) for start, end, handler, _ in handlers if start <= place < end}
            led = set() if place in stopped else {(each, False) for each in successors(code, place, behind[place])}
            return led | {(place, True)} if code[place] in COSTS.raises else led
        self.after, todo = {}, [(0, False)]
        while todo:
            node = todo.pop()
            if node not in self.after:
                self.after[node] = sorted(after(node))
                todo += self.after[node]
        self.nodes = sorted(self.after)
        self.edges = [(u, v) for u in self.nodes for v in self.after[u]]
        self.exits = [u for u in self.nodes if u[1] or code[u[0]] in RETURNS]
