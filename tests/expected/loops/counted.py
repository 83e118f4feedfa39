"""Counted loops of a program, and how often they go round at most, worked out from class files alone.

A loop counts where one instruction steps an int local by a constant, and one test of that local against a constant leaves it: the points are those of
docs/definitions ("Counted loops"). Nothing here is made as the product makes it: loops are those of ../graphs/flow.py, what is reached is walked through
node by node, and where a loop ends after few values these are tried one after another too.
"""
import os
import sys

HERE = os.path.dirname(os.path.abspath(__file__))
sys.path.append(os.path.join(HERE, '../graphs'))
import flow  # noqa: E402
from rechecker.class_files import instructions  # noqa: E402
from rechecker.graphs import CONDITIONS, JUMP, LOOKUP_SWITCH, TABLE_SWITCH, WIDE_JUMP, number, successors  # noqa: E402

LEAST, MOST = -2**31, 2**31 - 1
STATIC, FINAL = 8, 16
WIDE, IINC, GETSTATIC, PUTSTATIC = 196, 132, 178, 179
LDC, LDC_W, INTEGER = 18, 19, 3
# The opcodes that load an int, and those that store one word or two: by their number the local of the short forms, of which each kind has four in a row.
ILOAD, ISTORE = 21, 54
STORES = {54: 1, 55: 2, 56: 1, 57: 2, 58: 1}
SHORT_LOADS, SHORT_STORES = range(26, 30), range(59, 79)
# What a test asks of its first operand and its second one, by the opcode's distance from that of equality.
TESTS = [lambda a, b: a == b, lambda a, b: a != b, lambda a, b: a < b, lambda a, b: a >= b, lambda a, b: a > b, lambda a, b: a <= b]
WITH_ZERO, WITH_OTHER = range(153, 159), range(159, 165)
# Up to so many values are tried one after another.
TRIED = 300


class Code:
    """the instructions of a method, by place"""

    def __init__(self, program, method):
        self.program, self.body = program, program.body(method)
        self.each = program.classes[program.coded[method][0]]
        self.code = self.body['code']
        found = list(instructions(self.code))
        self.op = {at: op for at, op, _ in found}
        self.index = {at: index for at, _, index in found}
        starts = [at for at, _, _ in found]
        self.behind = dict(zip(starts, starts[1:] + [len(self.code)]))
        self.before = dict(zip(starts[1:], starts))
        self.targets = {handler for _, _, handler, _ in self.body['handlers']}
        for at in starts:
            if self.is_branching(at):
                jumped = successors(self.code, at, self.behind[at])
                # a condition that leads to the next instruction names it too
                self.targets |= jumped - ({self.behind[at]} if self.op[at] in CONDITIONS else set())
                if self.op[at] in CONDITIONS and number(self.code, at + 1, 2) == self.behind[at] - at:
                    self.targets.add(self.behind[at])

    def is_branching(self, at):
        return self.op[at] in CONDITIONS or self.op[at] in (JUMP, WIDE_JUMP, TABLE_SWITCH, LOOKUP_SWITCH)

    def wide(self, at):
        """the opcode of an instruction, and its local as the two bytes say, where it is a wide one"""
        return (self.code[at + 1], int.from_bytes(self.code[at + 2:at + 4], 'big')) if self.op[at] == WIDE else (self.op[at], None)

    def local(self, at):
        """the local that the operand of a load, a store or a step names"""
        op, wide = self.wide(at)
        return self.code[at + 1] if wide is None else wide

    def loads(self, at):
        """the local of which this loads the int, or none"""
        op, _ = self.wide(at)
        if op == ILOAD:
            return self.local(at)
        return op - SHORT_LOADS[0] if op in SHORT_LOADS else None

    def stored(self, at):
        """the first local that a store writes, and how many, or none"""
        op, _ = self.wide(at)
        if op in STORES:
            return self.local(at), STORES[op]
        if op in SHORT_STORES:
            kind, local = divmod(op - SHORT_STORES[0], 4)
            return local, STORES[ISTORE + kind]
        return None

    def steps(self, at):
        """the local and the number of an iinc, or none"""
        op, wide = self.wide(at)
        if op != IINC:
            return None
        return (self.local(at), number(self.code, at + 2, 1)) if wide is None else (wide, number(self.code, at + 4, 2))

    def written(self, at):
        """the locals that an instruction writes"""
        if self.steps(at):
            return {self.steps(at)[0]}
        first, count = self.stored(at) or (0, 0)
        return set(range(first, first + count))

    def constant(self, at):
        """the int constant that an instruction pushes, or none"""
        op = self.op[at]
        if 2 <= op <= 8:
            return op - 3
        if op in (16, 17):
            return number(self.code, at + 1, op - 15)
        if op in (LDC, LDC_W) and self.each.pool[self.index[at]][0] == INTEGER:
            return signed(self.each.pool[self.index[at]][1])
        return None

    def limit(self, at):
        """the constant or the constant field that an instruction pushes, or none"""
        if self.op[at] == GETSTATIC:
            return self.program.fixed_field(self.each, self.index[at])
        return self.constant(at)

    def is_targeted(self, at):
        return at in self.targets


def signed(word):
    return (word + 2**31) % 2**32 - 2**31


class Program(flow.Program):
    """the program, with the fields that putstatic names"""

    def __init__(self, main, files):
        super().__init__(main, files)
        self.named_fields = set()
        for each in self.classes:
            for method in each.methods:
                for _, op, index in instructions(method['code']['code']) if 'code' in method else ():
                    if op == PUTSTATIC:
                        self.named_fields.add(self.field(each, index))

    def field(self, each, index):
        return self.image.find_field(*self.named(each, index))

    def fixed_field(self, each, index):
        """the number of a static final int field with a constant, which no putstatic names, or none"""
        place = self.field(each, index)
        owner = self.classes[place[0]]
        field = owner.fields[place[1]]
        is_fixed = field['flags'] & STATIC and field['flags'] & FINAL and field['descriptor'] == b'I' and 'constant' in field
        return signed(owner.pool[field['constant']][1]) if is_fixed and place not in self.named_fields else None

    def found(self):
        """the lines of all counted loops, methods rising, headers rising"""
        boot = len(self.classes) - 1
        for m, name in enumerate(self.names):
            if self.coded[m][0] != boot:
                yield from ('%s %d loop<=%d' % (name, place, bound) for place, bound in counted(self, m))


def counted(program, m):
    """the headers of the counted loops of a method, rising, with their bounds"""
    graph, code = flow.Graph(program.body(m)), Code(program, m)
    loops = graph.loops()
    for header in sorted(loops or ()):
        loop = Loop(graph, code, loops, header)
        bounds = [bound for choice in loop.choices() for bound in [loop.bound(*choice)] if bound is not None]
        if bounds:
            yield header[0], min(bounds)


class Loop:
    """a loop of a method's graph"""

    def __init__(self, graph, code, loops, header):
        self.graph, self.code, self.header = graph, code, header
        self.members = set(loops[header])
        self.places = sorted(place for place, is_raise in self.members if not is_raise)
        self.sources = {u for u in graph.before[header] if u in self.members}
        self.inner = {u for h, members in loops.items() if h != header and h in self.members for u in members}

    def choices(self):
        """each step with each test of its local"""
        for step in self.places:
            if self.code.steps(step) and self.code.steps(step)[1] != 0:
                for test in self.places:
                    yield step, test

    def reached(self, without):
        """the members that walks from the header within the loop visit where one member is left out, up to the back edges"""
        seen, todo = set(), [self.header]
        while todo:
            u = todo.pop()
            if u in self.members and u not in seen and u != (without, False):
                seen.add(u)
                todo += [v for v in self.graph.after[u] if v != self.header]
        return seen

    def bound(self, step, test):
        """how often the loop goes round at most, by a step and a test, or none"""
        local, by = self.code.steps(step)
        limit, stays = self.leaving(test, local)
        if limit is None or not self.is_alone(step, local) or (step, False) in self.inner or (test, False) in self.inner:
            return None
        without_step, without_test = self.reached(step), self.reached(test)
        if without_step & self.sources or without_test & self.sources:
            return None
        start = self.start(local)
        if start is None:
            return None
        if (step, False) not in without_test:
            return values_before(start, by, limit, stays)
        if (test, False) not in without_step:
            return values_before(start + by, by, limit, stays)
        return None

    def is_alone(self, step, local):
        """whether no other member writes the local"""
        return all(place == step or local not in self.code.written(place) for place in self.places)

    def leaving(self, test, local):
        """the limit of a test of the local that leaves the loop by one of its two ways, and for which values it stays in it; or none"""
        code, op = self.code, self.code.op[test]
        if code.is_targeted(test) or op not in WITH_ZERO and op not in WITH_OTHER or test not in code.before:
            return None, None
        push, limit = code.before[test], 0
        if op in WITH_OTHER:
            limit = code.limit(push)
            if limit is None or code.is_targeted(push) or push not in code.before:
                return None, None
            push = code.before[push]
        target = test + number(code.code, test + 1, 2)
        inside = [(place, False) in self.members for place in (target, code.behind[test])]
        if code.loads(push) != local or inside[0] == inside[1]:
            return None, None
        asks = (op - WITH_ZERO[0]) % 6
        return limit, asks if inside[0] else asks ^ 1

    def start(self, local):
        """the constant that is stored in the local before the loop is entered, or none"""
        entries = [u for u in self.graph.before[self.header] if u not in self.members]
        first = self.graph.nodes[0]
        if len(entries) != 1 or self.header == first:
            return None
        node = entries[0]
        while node[1] or local not in self.code.written(node[0]):
            if node == first or len(self.graph.before[node]) != 1:
                return None
            node, = self.graph.before[node]
        at = node[0]
        is_int = self.code.stored(at) == (local, 1) and self.code.wide(at)[0] in (ISTORE, *SHORT_STORES[:4])
        if not is_int or self.code.is_targeted(at) or at not in self.code.before:
            return None
        return self.code.constant(self.code.before[at])


def values_before(first, by, limit, stays):
    """how many of first, first + by, .. come before the first that leaves the loop, where this and all before it are ints, or none"""
    count = solved(first, by, limit, stays)
    value, tried = first, 0
    while tried <= TRIED and LEAST <= value <= MOST and TESTS[stays](value, limit):
        value, tried = value + by, tried + 1
    if tried <= TRIED:
        assert count == (tried if LEAST <= value <= MOST else None), (first, by, limit, stays, count, tried)
    else:
        assert count is None or count > TRIED
    return count


def solved(first, by, limit, stays):
    """the same by arithmetic: the values that stay are those up to an end, but for `!=`, where they are those before the limit, and `==`"""
    if not LEAST <= first <= MOST:
        return None
    if not TESTS[stays](first, limit):
        return 0
    if stays == 0:
        return 1 if LEAST <= first + by <= MOST else None
    if stays == 1:
        count, rest = divmod(limit - first, by)
        return count if rest == 0 and count > 0 else None
    # by the test the first value that leaves on the side to which the values go
    leaves = {2: limit, 3: limit - 1, 4: limit, 5: limit + 1}[stays]
    if (by > 0) != (stays in (2, 5)):
        return None
    count = -((first - leaves) // by) if by > 0 else -((leaves - first) // -by)
    return count if LEAST <= first + count * by <= MOST else None
