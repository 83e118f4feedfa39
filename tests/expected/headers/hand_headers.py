"""Classes by hand for `jop headers`: tables of lines in any order, several or none of them, names of files, classes and methods that hold a space, a line feed, a # or a backslash, loops with several entries."""
import os
import struct
import sys

HERE = os.path.dirname(os.path.abspath(__file__))
sys.path[:0] = [os.path.join(HERE, '../loops')]
from assembler import Hand, add  # noqa: E402

# 0 iconst_0, 1 istore_0, 2 iload_0, 3 iload_1, 4 if_icmpge, 7 iinc, 10 goto, 13 return: the loop is headed at 2, and doesn't count
LOOP = 'iconst_0; istore_0; h: iload_0; iload_1; if_icmpge e; iinc 0 1; goto h; e: return'
# 2 iload_0, 3 bipush 10: the same, and counts
COUNTS = 'iconst_0; istore_0; h: iload_0; bipush 10; if_icmpge e; iinc 0 1; goto h; e: return'
# the first as above, the second headed at 15
TWO = LOOP.replace('return', 'iconst_0; istore_0; k: iload_0; bipush 10; if_icmpge f; iinc 0 1; goto k; f: return')
# headed at 0
AT_START = 'h: iload_0; ifle e; iinc 0 -1; goto h; e: return'
# 0 iload_0, 1 ifeq, 4 iload_1, 5 ifeq, 8 iinc, 11 goto 4, 14 return: 4 and 8 are entered from 1
SEVERAL = 'iload_0; ifeq m; h: iload_1; ifeq e; m: iinc 1 -1; goto h; e: return'
INTS = '(II)V'


class Sourced(Hand):
    """a class whose methods have tables of lines, and which names its source"""

    def __init__(self, name, source=None):
        super().__init__(name)
        self.source, self.tables = source, []

    def lines(self, name, text, *tables):
        """adds a method with these tables, each a list of places and lines, or bytes"""
        self.tables = [data if isinstance(data, bytes) else table(data) for data in tables]
        add(self, name, INTS, text, local=2)
        self.tables = []
        return self

    def code(self, stack, local, code, table, frames):
        data = super().code(stack, local, code, table, frames)
        more = b''.join(self.attribute('LineNumberTable', each) for each in self.tables)
        front = 8 + len(code) + 2 + 8 * len(table)
        count = int.from_bytes(data[front:front + 2], 'big')
        return data[:front] + struct.pack('>H', count + len(self.tables)) + data[front + 2:] + more

    def data(self):
        """the class file, at whose end its attributes are counted"""
        if self.source is None:
            return super().data()
        body = self.source if isinstance(self.source, bytes) else struct.pack('>H', self.utf8(self.source))
        attribute = self.attribute('SourceFile', body)
        return super().data()[:-2] + b'\0\1' + attribute


def table(starts):
    return struct.pack('>H', len(starts)) + b''.join(struct.pack('>HH', *start) for start in starts)


def tables():
    """classes T and its like, whose methods are called by what their tables show"""
    k = Sourced('T', 'T.java')
    k.lines('inOrder', LOOP, [(0, 10), (2, 11), (7, 12), (13, 13)])
    k.lines('outOfOrder', LOOP, [(13, 23), (7, 22), (2, 21), (0, 20)])
    k.lines('twiceAtOnePlace', LOOP, [(2, 30), (0, 31), (2, 32)])
    k.lines('twoTables', LOOP, [(0, 40), (2, 41)], [(2, 42)])
    k.lines('secondTableIsBehind', LOOP, [(0, 50), (2, 51)], [(0, 52), (7, 53)])
    k.lines('tablesOutOfOrder', LOOP, [(7, 63)], [(0, 60), (1, 61)])
    k.lines('allBehind', LOOP, [(3, 70)])
    k.lines('atItsStart', AT_START, [(0, 80)])
    k.lines('noTable', LOOP)
    k.lines('emptyTable', LOOP, [])
    k.lines('tooLong', LOOP, table([(0, 90)]) + b'\0', [(1, 91)])
    k.lines('tooShort', LOOP, [(0, 92)], b'\0\2\0\2\0\x5d')
    k.lines('cutOff', LOOP, b'\0')
    k.lines('leastLine', LOOP, [(0, 0)])
    k.lines('greatestLine', LOOP, [(0, 65535)])
    k.lines('counts', COUNTS, [(0, 100)])
    k.lines('twoLoops', TWO, [(0, 110), (13, 111)])
    k.lines('several', SEVERAL, [(0, 120), (4, 121)])
    k.lines('none', 'return', [(0, 130)])
    k.lines('g g', LOOP, [(0, 140)])
    k.lines('#g', LOOP, [(0, 141)])
    k.lines('sameLine', LOOP, [(0, 110)])
    k.lines('f\\x', LOOP, [(0, 142)])
    k.lines('severalToo', SEVERAL, [(1, 122), (8, 11), (14, 123)])
    k.main()
    return k


def others():
    """classes whose sources or names are odd"""
    spaced = Sourced('Spaced', 'Spa ced.java').lines('f', LOOP, [(0, 1)])
    colon = Sourced('Colon', 'Colon:7.java').lines('f', LOOP, [(0, 2)])
    plain = Sourced('Plain').lines('f', LOOP, [(0, 3)])
    long = Sourced('Long', b'\0\1\0').lines('f', LOOP, [(0, 4)])
    nothing = Sourced('Nothing', b'\0\0').lines('f', LOOP, [(0, 5)])
    of_class = Sourced('OfClass')
    of_class.source = struct.pack('>H', of_class.this)
    of_class.lines('f', LOOP, [(0, 6)])
    empty = Sourced('Empty', '').lines('f', LOOP, [(0, 7)])
    packed = Sourced('a/b/Packed', 'Packed.java').lines('f', LOOP, [(0, 8)])
    marked = Sourced('#Marked', '#Marked.java').lines('f', LOOP, [(0, 9)]).lines('m', SEVERAL).lines('n', 'return')
    between = Sourced('a b/Between', 'Between.java').lines('f', LOOP, [(0, 10)])
    beside = Sourced('Beside', 'T.java').lines('f', LOOP, [(0, 11)]).lines('h', LOOP, [(0, 150)])
    fed = Sourced('Fe\nd', 'Fe\nd.java').lines('f\n', LOOP, [(0, 13)])
    escaped = Sourced('Es\\x20caped', 'Es\\x20caped.java').lines('f', LOOP, [(0, 14)])
    within = Sourced('a/#Within', '#Within.java').lines('f', LOOP, [(0, 15)])
    accented = Sourced('Accented', 'Acc\u00e9nt.java').lines('f', LOOP, [(0, 12)])
    return [spaced, colon, plain, long, nothing, of_class, empty, packed, marked, between, beside, accented, fed, escaped, within]


def program():
    """the class files"""
    return [each.data() for each in (tables(), *others())]
