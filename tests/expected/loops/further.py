"""Loops that count with what is known further, and how often they go round at most, worked out from class files alone.

Limits and first values are ints that lines push: constants, int locals into which only one int is stored wherever control comes from, lengths of arrays,
and what is computed of two such. An array's length is known where lines make it, or read it from a local or a field into which only arrays of that length
are stored; what is stored into fields is told without fields. The points are those of docs/definitions ("Loops that count further"). What may have been
stored last is walked back to, node by node, from each load.
"""
import counted
import flow
from counted import GETSTATIC, LEAST, PUTSTATIC, Code, Loop, signed
from rechecker.graphs import number

GETFIELD, PUTFIELD, DUP, NEWARRAY, ANEWARRAY, ARRAYLENGTH = 180, 181, 89, 188, 189, 190
ALOAD, ASTORE = 25, 58
SHORT_REFERENCE_LOADS, SHORT_REFERENCE_STORES = range(42, 46), range(75, 79)
# stores of numbers into arrays: int, long, byte, char, short
ELEMENT_STORES = (79, 80, 84, 85, 86)
PUSHES = range(1, 21)
STATIC = 8


def quotient(x, y):
    """x / y, rounded to 0"""
    return None if y == 0 else abs(x) // abs(y) * (1 if (x < 0) == (y < 0) else -1)


def remainder(x, y):
    return None if y == 0 else x - y * quotient(x, y)


ARITHMETIC = {
    96: lambda x, y: x + y, 100: lambda x, y: x - y, 104: lambda x, y: x * y, 108: quotient, 112: remainder,
    120: lambda x, y: x << (y & 31), 122: lambda x, y: x >> (y & 31), 124: lambda x, y: x % 2**32 >> (y & 31),
    126: lambda x, y: x & y, 128: lambda x, y: x | y, 130: lambda x, y: x ^ y,
}


class FurtherCode(Code):
    """the instructions of a method, and by the place behind them what lines push: where they begin, and the int or the length"""

    def __init__(self, program, m, arrays):
        super().__init__(program, m)
        self.arrays, self.graph = arrays, flow.Graph(self.body)
        self.reached = {place for place, is_raise in self.graph.nodes if not is_raise}
        self.ints, self.lengths, self.last = {}, {}, {}
        while self.found_more():
            pass

    def found_more(self):
        """whether more is found of the lines in front of each place by what is found already"""
        found = [(table, place, known) for place in self.before if place not in self.targets and place in self.reached
                 for table, told in ((self.ints, self.int_of), (self.lengths, self.length_of)) if place not in table
                 for known in [told(self.before[place])] if known is not None]
        for table, place, known in found:
            table[place] = known
        return bool(found)

    def int_of(self, at):
        """where lines begin that push an int, of which this is the last, and the int; or none"""
        op = self.op[at]
        limit = self.limit(at)
        if limit is not None:
            return at, limit
        if self.loads(at) is not None:
            stored = self.only_stored(at, self.loads(at), self.ints, self.is_int_store)
            return None if stored is None else (at, stored)
        if op == ARRAYLENGTH:
            return self.lengths.get(at)
        if op in ARITHMETIC and at in self.ints and self.ints[at][0] in self.ints:
            second, y = self.ints[at]
            first, x = self.ints[second]
            value = ARITHMETIC[op](x, y)
            return None if value is None else (first, signed(value))
        return None

    def length_of(self, at):
        """so of an array and its length"""
        op = self.op[at]
        if op in (NEWARRAY, ANEWARRAY) and at in self.ints and self.ints[at][1] >= 0:
            return self.ints[at]
        if op == GETSTATIC:
            length = self.arrays.get(self.program.field(self.each, self.index[at]))
            return None if length is None else (at, length)
        if op == GETFIELD and at not in self.targets and self.loads_reference(self.before[at]) is not None:
            length = self.arrays.get(self.program.field(self.each, self.index[at]))
            return None if length is None else (self.before[at], length)
        if self.loads_reference(at) is not None:
            stored = self.only_stored(at, self.loads_reference(at), self.lengths, self.is_reference_store)
            return None if stored is None else (at, stored)
        if op in ELEMENT_STORES:
            return self.filled(at)
        return None

    def filled(self, store):
        """the array of which an element is stored as an initialiser does it: behind a copy of it, and two constants"""
        place, ops = store, []
        for _ in range(3):
            if place in self.targets or place not in self.before:
                return None
            place = self.before[place]
            ops.append(self.op[place])
        is_filling = ops[0] in PUSHES and ops[1] in PUSHES and ops[2] == DUP
        return self.lengths.get(place) if is_filling else None

    def loads_reference(self, at):
        op, _ = self.wide(at)
        if op == ALOAD:
            return self.local(at)
        return op - SHORT_REFERENCE_LOADS[0] if op in SHORT_REFERENCE_LOADS else None

    def is_int_store(self, at):
        return self.wide(at)[0] in (counted.ISTORE, *counted.SHORT_STORES[:4])

    def is_reference_store(self, at):
        return self.wide(at)[0] in (ASTORE, *SHORT_REFERENCE_STORES)

    def last_stores(self, node, local):
        """the places that may have written the local last once control has passed the node; none among them where on some way nothing did"""
        if (node, local) not in self.last:
            seen, found, todo = set(), set(), [node]
            while todo:
                at = todo.pop()
                if at in seen:
                    continue
                seen.add(at)
                if not at[1] and local in self.written(at[0]):
                    found.add(at[0])
                    continue
                if at == self.graph.nodes[0]:
                    found.add(None)
                todo += self.graph.before[at]
            self.last[node, local] = found
        return self.last[node, local]

    def only_stored(self, at, local, table, is_store):
        """what each instruction stores that may have written the local last, where that is one and the same"""
        return self.stored_by(self.last_stores((at, False), local), local, table, is_store)

    def stored_by(self, places, local, table, is_store):
        values = {table[place][1] if place is not None and is_store(place) and self.stored(place)[0] == local and place in table else None for place in places}
        return values.pop() if len(values) == 1 else None


class FurtherLoop(Loop):
    """a loop that counts with what is known further"""

    def leaving(self, test, local):
        code, op = self.code, self.code.op[test]
        if op not in counted.WITH_OTHER or test not in code.ints:
            return super().leaving(test, local)
        push, limit = code.ints[test]
        target = test + number(code.code, test + 1, 2)
        inside = [(place, False) in self.members for place in (target, code.behind[test])]
        if push in code.targets or push not in code.before or code.loads(code.before[push]) != local or inside[0] == inside[1]:
            return None, None
        asks = (op - counted.WITH_ZERO[0]) % 6
        return limit, asks if inside[0] else asks ^ 1

    def start(self, local):
        """the int that is stored last in the local wherever the loop is entered, or none"""
        entries = [u for u in self.graph.before[self.header] if u not in self.members]
        if self.header == self.graph.nodes[0]:
            return None
        places = set().union(*(self.code.last_stores(u, local) for u in entries))
        return self.code.stored_by(places, local, self.code.ints, self.code.is_int_store)


class Program(counted.Program):
    """the program, with the arrays that its fields hold"""

    def __init__(self, main, files):
        super().__init__(main, files)
        self.puts = {}
        for m in range(len(self.names)):
            code = FurtherCode(self, m, {})
            for at, op in code.op.items():
                if op in (PUTSTATIC, PUTFIELD):
                    known = code.lengths.get(at)
                    self.puts.setdefault(self.field(code.each, code.index[at]), set()).add(None if known is None else known[1])
        self.arrays = {field: min(lengths) for field, lengths in self.puts.items()
                       if len(lengths) == 1 and None not in lengths and self.is_null_at_first(field)}

    def is_null_at_first(self, field):
        """whether no object of the start has the field: string literals have those of java.lang.String"""
        each = self.classes[field[0]]
        return bool(each.fields[field[1]]['flags'] & STATIC) or each.name != b'java/lang/String'

    def found(self):
        boot = len(self.classes) - 1
        for m, name in enumerate(self.names):
            if self.coded[m][0] != boot:
                yield from ('%s %d loop<=%d' % (name, place, bound) for place, bound in further(self, m))


def further(program, m):
    """the headers of the loops of a method that count, rising, with their bounds"""
    code = FurtherCode(program, m, program.arrays)
    loops = code.graph.loops()
    for header in sorted(loops or ()):
        loop = FurtherLoop(code.graph, code, loops, header)
        bounds = [bound for choice in loop.choices() for bound in [loop.bound(*choice)] if bound is not None]
        if bounds:
            yield header[0], min(bounds)
