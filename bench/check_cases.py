"""Programs, bounds and certificates of which the check is measured; check.py has what each is."""
import struct
import sys

from sections import FIRST, RETURN, Graph, certificate, load, straight
import flow
from certificate import Maker
from costs import Timing
from made import MAIN, ClassFile, frames_at
from study import Study, read_bounds

LONGEST = 65535
STATIC, THROWABLE, INTS = 9, 'java/lang/Throwable', '([II)V'
ACONST_NULL, ICONST_0, ISTORE_1, ILOAD_1 = b'\x01', b'\x03', b'\x3c', b'\x1b'
ALOAD_0, POP, IFEQ, TABLESWITCH, INVOKEVIRTUAL, INVOKESTATIC = b'\x2a', b'\x57', b'\x99', b'\xaa', b'\xb6', b'\xb8'
ATHROW, MONITORENTER = b'\xbf', b'\xc2'
LARGE = Timing(blocks=256, block_words=1024)


class Case:
    """class files, and what is checked: the text of bounds, the certificate and the timing; `holds` where it has to hold"""

    def __init__(self, files, bounds, text, timing=LARGE, holds=True):
        self.files, self.bounds, self.text, self.timing, self.holds = files, bounds.encode(), text, timing, holds


def with_main(made, stack, local, code, table=(), frames=()):
    """the class file with this `main` in the end"""
    made.method(STATIC, 'main', MAIN, (stack, local, code, list(table), list(frames)))
    return made.data()


def branch(op, offset):
    return op + struct.pack('>h', offset)


def call(made, op, owner, name, descriptor='()V'):
    return op + struct.pack('>H', made.member(10, owner, name, descriptor))


def bounds_of(places, name='main', descriptor=MAIN):
    return ''.join('Main.%s%s %d loop<=1\n' % (name, descriptor, place) for place in places)


# ---- many methods

def turning(made, number, callee):
    """adds a method of (int[] a, int n): for (i = s = 0; i < n; i++) { s += a[i] * n; if (s > n) a[i] = s; callee(a, i) }"""
    called = call(made, INVOKESTATIC, made.name, 'm%d' % callee, INTS) if callee else b'\x58'
    turn = bytes.fromhex('1d2a1c2e1b68603e' '1d1ba40007' '2a1c1d4f' '2a1c') + called + bytes.fromhex('840201')
    end = 9 + len(turn) + 3
    code = bytes.fromhex('033d033e' '1c1b') + branch(b'\xa2', end - 6) + turn + branch(b'\xa7', 4 - (end - 3)) + RETURN
    frames = [b'\xfd' + struct.pack('>H', 4) + b'\1\1', bytes([26 - 4 - 1]), bytes([end - 26 - 1])]
    made.method(STATIC, 'm%d' % number, INTS, (4, 4, code, [], frames))


def thousand(timing=Timing()):
    files, bounds = [], ''
    main = ClassFile('Main')
    for c in range(100):
        made = ClassFile('p/C%d' % c)
        for number in range(10):
            turning(made, number, number + 1 if number < 9 else None)
            bounds += 'p/C%d.m%d%s 4 loop<=%d\n' % (c, number, INTS, number + 1)
        files.append(made.data())
    calls = [ACONST_NULL + ICONST_0 + call(main, INVOKESTATIC, 'p/C%d' % c, 'm0', INTS) for c in range(100)]
    files.append(with_main(main, 2, 1, b''.join(calls) + RETURN))
    study = Study(flow.Program('Main', files), timing, read_bounds(bounds.encode()))
    sys.setrecursionlimit(100000)
    return Case(files, bounds, Maker(study, 2).made(study.root('Main.main' + MAIN)).text().encode(), timing)


def few_blocks():
    return thousand(Timing(blocks=6))


class Calls:
    """makes sections of methods in turn, each behind all that it calls, of a program where a method's region fits or not"""

    def __init__(self, timing):
        self.timing, self.sections = timing, []

    def add(self, kind, number, instructions):
        """adds a section of a code without branches, and gives its value"""
        section, value = straight(self.timing, instructions).section(kind, number)
        self.sections.append(section)
        return value


LEAVE = (RETURN[0], 1, 0)


def chain():
    made, timing, count = ClassFile('Main'), Timing(blocks=256), 20000
    codes = [call(made, INVOKESTATIC, 'Main', 'm%d' % (n + 1)) + RETURN for n in range(count - 1)] + [RETURN]
    for n, code in enumerate(codes):
        made.method(STATIC, 'm%d' % n, '()V', (0, 0, code, [], []))
    codes.append(call(made, INVOKESTATIC, 'Main', 'm0') + RETURN)
    files = [with_main(made, 0, 1, codes[-1])]
    calls, order = Calls(timing), [*range(count - 1, -1, -1), count]
    loads = load(timing, RETURN)
    value = calls.add('inside', FIRST + order[0], [LEAVE])
    full = value + loads
    for behind, n in enumerate(order[1:], 2):
        own = load(timing, codes[n])
        loads += own
        if behind <= timing.blocks:
            value = calls.add('inside', FIRST + n, [(INVOKESTATIC[0], 3, value), LEAVE])
            full = value + loads
        else:
            full = own + calls.add('loops', FIRST + n, [(INVOKESTATIC[0], 3, own + full), LEAVE])
    return Case(files, '', certificate(calls.sections, FIRST + count, full, timing, codes), timing)


def overridden(count):
    """class files of so many classes, of which all but the first override a method of that"""
    files = []
    for number in range(count):
        made = ClassFile('B%d' % number, *(['B0'] if number else []))
        made.method(1, 'm', '()V', (0, 1, RETURN, [], []))
        files.append(made.data())
    return files


def overriding():
    count, timing = 1023, LARGE
    calls, made = Calls(timing), ClassFile('Main')
    codes = [15000 * (ACONST_NULL + call(made, INVOKEVIRTUAL, 'B0', 'm')) + RETURN for _ in range(4)]
    for number, code in enumerate(codes):
        made.method(STATIC, 'f%d' % number, '()V', (1, 0, code, [], []))
    codes.append(b''.join(call(made, INVOKESTATIC, 'Main', 'f%d' % number) for number in range(4)) + RETURN)
    files = [*overridden(count), with_main(made, 0, 1, codes[-1])]
    each = [calls.add('inside', FIRST + number, [LEAVE]) for number in range(count)][0]
    inside = each
    for kind in ('inside', 'loops'):
        full = each + load(timing, RETURN)
        for number, code in enumerate(codes[:-1]):
            added = inside if kind == 'inside' else full + load(timing, code)
            value = calls.add(kind, FIRST + count + number, 15000 * [(ACONST_NULL[0], 1, 0), (INVOKEVIRTUAL[0], 3, added)] + [LEAVE])
        added = value if kind == 'inside' else value + load(timing, codes[0]) + load(timing, codes[-1])
        value = calls.add(kind, FIRST + count + 4, 4 * [(INVOKESTATIC[0], 3, added)] + [LEAVE])
    return Case(files, '', certificate(calls.sections, FIRST + count + 4, value + load(timing, codes[-1]), timing, codes), timing)


def callers(callers=20, targets=238):
    """methods that each call one, which calls 15,000 times what that many classes override; all that one of them runs fits"""
    calls, made, timing = Calls(LARGE), ClassFile('Main'), LARGE
    code = 15000 * (ACONST_NULL + call(made, INVOKEVIRTUAL, 'B0', 'm')) + RETURN
    made.method(STATIC, 'f', '()V', (1, 0, code, [], []))
    small = call(made, INVOKESTATIC, 'Main', 'f') + RETURN
    for number in range(callers):
        made.method(STATIC, 'c%d' % number, '()V', (0, 0, small, [], []))
    last = call(made, INVOKESTATIC, 'Main', 'c0') + RETURN
    files = [*overridden(targets), with_main(made, 0, 1, last)]
    each = [calls.add('inside', FIRST + number, [LEAVE]) for number in range(targets)][0]
    value = calls.add('inside', FIRST + targets, 15000 * [(ACONST_NULL[0], 1, 0), (INVOKEVIRTUAL[0], 3, each)] + [LEAVE])
    inside = [calls.add('inside', FIRST + targets + 1 + n, [(INVOKESTATIC[0], 3, value), LEAVE]) for n in range(callers)][0]
    value = calls.add('inside', FIRST + targets + 1 + callers, [(INVOKESTATIC[0], 3, inside), LEAVE])
    full = value + sum(load(timing, each) for each in (code, small, last)) + targets * load(timing, RETURN)
    return Case(files, '', certificate(calls.sections, FIRST + targets + 1 + callers, full, timing, [code]), timing)


def regions():
    """a method of 8,000 loops that each call what 239 classes override, a region each; together with two methods more that it calls they don't fit"""
    targets, count, timing = 239, 8000, LARGE
    made, codes = ClassFile('Main'), []
    for name in 'gh':
        made.method(STATIC, name, '()V', (0, 0, RETURN, [], []))
    code = ICONST_0 + ISTORE_1 + call(made, INVOKESTATIC, 'Main', 'g') + call(made, INVOKESTATIC, 'Main', 'h')
    places = [len(code) + 8 * n for n in range(count)]
    code += count * (ACONST_NULL + call(made, INVOKEVIRTUAL, 'B0', 'm') + ILOAD_1 + branch(IFEQ, -5)) + RETURN
    frames = frames_at(dict.fromkeys(places))
    frames[0] = b'\xfc' + struct.pack('>H', places[0]) + b'\1'
    files = [*overridden(targets), with_main(made, 1, 2, code, (), frames)]
    calls, own, small = Calls(timing), load(timing, code), load(timing, RETURN)
    each = [calls.add('inside', FIRST + number, [LEAVE]) for number in range(targets + 2)][0]
    graph = Graph(timing)
    for place, op, length in ((0, ICONST_0, 1), (1, ISTORE_1, 1), (2, INVOKESTATIC, 3), (5, INVOKESTATIC, 3)):
        graph.add(place, op[0], [place + length], each + small + own if op == INVOKESTATIC else 0)
    for place in places:
        graph.add(place, ACONST_NULL[0], [place + 1])
        graph.add(place + 1, INVOKEVIRTUAL[0], [place + 4], each)
        graph.add(place + 4, ILOAD_1[0], [place + 5])
        graph.add(place + 5, IFEQ[0], [place, place + 8])
    graph.add(places[-1] + 8, RETURN[0], [])
    held = {2 * place: [2 * place, 2 * place + 2, 2 * place + 8, 2 * place + 10] for place in places}
    found, value = graph.section('loops', FIRST + targets + 2, held, own + targets * small)
    return Case(files, bounds_of(places), certificate([*calls.sections, found], FIRST + targets + 2, value + own, timing, [code]), timing)


# ---- one long method

def one(code, file, places, graph, held, sections=()):
    """the case of a main that calls nothing, with loops at these places"""
    found, value = graph.section('inside', FIRST, held)
    return Case([file], bounds_of(places), certificate([found, *sections], FIRST, value + load(LARGE, code), LARGE, [code]))


def loops_of():
    """the code of iconst_0, istore_1, and 16,383 times iload_1, ifeq to the iload_1; its loops' places and frames"""
    code = ICONST_0 + ISTORE_1 + 16383 * (ILOAD_1 + branch(IFEQ, -1)) + RETURN
    places = range(2, LONGEST - 1, 4)
    frames = frames_at(dict.fromkeys(places))
    frames[0] = b'\xfc' + struct.pack('>H', 2) + b'\1'
    return code, places, frames


def graph_of_loops(places):
    graph = Graph(LARGE)
    graph.add(0, ICONST_0[0], [1])
    graph.add(1, ISTORE_1[0], [2])
    for place in places:
        graph.add(place, ILOAD_1[0], [place + 1])
        graph.add(place + 1, IFEQ[0], [place, place + 4])
    graph.add(LONGEST - 1, RETURN[0], [])
    return graph, {2 * place: [2 * place, 2 * place + 2] for place in places}


def loops():
    code, places, frames = loops_of()
    return one(code, with_main(ClassFile('Main'), 1, 2, code, (), frames), places, *graph_of_loops(places))


def names():
    """the same loops of a method whose name is long, of which only the first has a bound"""
    name, made = 'n' * 60000, ClassFile('Main')
    code, places, frames = loops_of()
    frames[0] = b'\xfd' + struct.pack('>H', 2) + b'\0\1'
    made.method(STATIC, name, '()V', (1, 2, code, [], frames))
    found, value = Graph.section(*graph_of_loops(places)[:1], 'inside', FIRST, graph_of_loops(places)[1])
    text = certificate([found], FIRST, value + load(LARGE, code), LARGE, [code])
    return Case([with_main(made, 0, 1, RETURN)], bounds_of(places[:1], name, '()V'), text, holds=False)


class Throwing:
    """a code whose instructions from the place behind `front` on are all athrow, each with an exception entry for each of its handlers"""

    def __init__(self, front, handlers):
        self.first, self.handlers = len(front), handlers
        self.code = front + (LONGEST - len(front)) * ATHROW
        self.table = [(place, place + 1, handler, 0) for place in range(self.first, LONGEST) for handler in handlers(place)]

    def add(self, made, name, descriptor, local=1):
        frames = frames_at({place: made.cls(THROWABLE) for place in range(self.first, LONGEST)})
        made.method(STATIC, name, descriptor, (2, local, self.code, self.table, frames))

    def extend(self, graph):
        for place in range(self.first, LONGEST):
            graph.add(place, ATHROW[0], [], handlers=self.handlers(place), entries=len(self.table))


def members():
    """each athrow leads to the next one, and the last one to the first"""
    graph, made = Graph(LARGE), ClassFile('Main')
    graph.add(0, ACONST_NULL[0], [1])
    row = Throwing(ACONST_NULL, lambda place: [place + 1 if place + 1 < LONGEST else 1])
    row.add(made, 'main', MAIN)
    row.extend(graph)
    return one(row.code, made.data(), [1], graph, {2: range(2, 2 * LONGEST)})


class Entering:
    """aconst_null, so many nop, pop, then aload_0, monitorenter to the longest code; each raise step leads to the last nop, and the last one to the others, too"""

    def __init__(self, headers):
        self.headers = range(1, headers + 1)
        self.code = ACONST_NULL + headers * b'\0' + POP
        self.first = len(self.code)
        pairs = (LONGEST - 1 - self.first) // 2
        self.code += pairs * (ALOAD_0 + MONITORENTER) + RETURN
        self.last = len(self.code) - 2
        self.table = [(self.first, self.last + 1, headers, 0), *((self.last, self.last + 1, header, 0) for header in self.headers[:-1])]

    def add(self, made, name):
        frames = frames_at({header: made.cls(THROWABLE) for header in self.headers})
        made.method(STATIC, name, MAIN, (1, 1, self.code, self.table, frames))

    def graph(self):
        graph = Graph(LARGE)
        for place, op in enumerate(self.code):
            handlers = self.headers if place == self.last else self.headers[-1:]
            graph.add(place, op, [] if op == RETURN[0] else [place + 1], handlers=handlers, entries=len(self.table))
        return graph


def nested():
    code, made = Entering(23), ClassFile('Main')
    code.add(made, 'main')
    graph = code.graph()
    held = {2 * header: [u for u in sorted(graph.cost) if 2 * header <= u <= 2 * code.last + 1] for header in code.headers}
    return one(code.code, made.data(), code.headers, graph, held)


def nodes():
    """sections of three methods, with potentials of many digits"""
    code, made = Entering(1), ClassFile('Main')
    for name in ('main', 'f', 'g'):
        code.add(made, name)
    graph, sections = code.graph(), []
    held = {2: [u for u in sorted(graph.cost) if 2 <= u <= 2 * code.last + 1]}
    for number, kind in ((0, 'inside'), (0, 'loops'), (1, 'inside'), (1, 'loops')):
        sections.append(graph.section(kind, FIRST + number, held, more=10 ** 16))
    text = certificate([section for section, _ in sections], FIRST, sections[0][1] + load(LARGE, code.code), LARGE, [code.code])
    return Case([made.data()], ''.join('Main.%s%s 1 loop<=1\n' % (name, MAIN) for name in ('main', 'f', 'g')), text)


def switch(front, targets):
    """the code with a tableswitch that leads to targets"""
    at, code = len(front), front + TABLESWITCH
    code += (-len(code)) % 4 * b'\0'
    return code + struct.pack('>iii', targets[0] - at, 0, len(targets) - 1) + b''.join(struct.pack('>i', target - at) for target in targets)


def interleaved():
    """a switch leads to 1,310 places, from each of which athrows lead on, 1,310 bytes apart, and the last one back to the first"""
    count, made = 1310, ClassFile('Main')
    # A switch ends at a multiple of four, so the first three loops have 41 of them, and the others 40.
    first = LONGEST - 40 * count - 3
    headers = range(first, first + count)
    front = (first - len(switch(ACONST_NULL + ICONST_0, headers))) * b'\0' + ACONST_NULL + ICONST_0
    throwing = Throwing(switch(front, headers), lambda place: [place + count if place + count < LONGEST else first + (place - first) % count])
    throwing.add(made, 'main', MAIN)
    graph = Graph(LARGE)
    for place, op in enumerate(front):
        graph.add(place, op, [place + 1])
    graph.add(len(front), TABLESWITCH[0], headers)
    throwing.extend(graph)
    held = {2 * each: [u for place in range(each, LONGEST, count) for u in (2 * place, 2 * place + 1)] for each in headers}
    return one(throwing.code, made.data(), headers, graph, held)


def too_big():
    """a certificate that is longer than what is read"""
    case = members()
    return Case(case.files, '', case.text + bytes((1 << 24) - len(case.text)), holds=False)


MADE = {made.__name__: made for made in (thousand, few_blocks, loops, members, interleaved, nested, nodes, too_big, overriding, chain, regions, callers, names)}
