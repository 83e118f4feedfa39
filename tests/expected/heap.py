"""Writes images by hand, and the states of the JVM Specification SE 8 at each boundary of their runs: the last rows of crates/test_machine.

    python3 heap.py FILE

It interprets bytecode (chapter 6), and knows neither microcode nor the words of frames."""
import sys

M32 = 1 << 32
M64 = 1 << 64
FAULTS = ['ArithmeticException', 'ArrayIndexOutOfBoundsException', 'ArrayStoreException', 'ClassCastException',
          'IncompatibleClassChangeError', 'NegativeArraySizeException', 'NullPointerException', 'OutOfMemoryError', 'StackOverflowError']

# ---- classes: name, superclass, interfaces, own fields, whether an interface
CLASSES = [('Object', None, [], [], False), ('Serializable', None, [], [], True), ('Cloneable', None, [], [], True),
           ('String', 'Object', ['Serializable'], [('chars', '[C')], False), ('Throwable', 'Object', ['Serializable'], [('message', 'String')], False)]
CLASSES += [(f, 'Throwable', [], [], False) for f in FAULTS]
CLASSES += [('Boot', 'Object', [], [], False),
            ('I', None, [], [], True), ('J', None, ['I'], [], True),
            ('A', 'Object', [], [('x', 'I'), ('y', 'J'), ('next', 'A')], False),
            ('B', 'A', ['I'], [('z', 'I'), ('data', '[I')], False),
            ('C', 'Object', [], [], False),
            ('D', 'B', ['J', 'Cloneable'], [('w', 'J')], False)]
NAMES = [c[0] for c in CLASSES]
STATICS = [('count', 'I'), ('total', 'J'), ('root', 'A'), ('last', 'I')]
ARRAYS = ['[Object', '[Serializable', '[Cloneable', '[A', '[B', '[C', '[I_', '[J_', '[D', '[[I', '[[J', '[[A', '[[B', '[[Object', '[[I_', '[[[I', '[String']
PRIMS = ['Z', 'C', 'F', 'D_', 'B_', 'S', 'I', 'J']  # codes 4 to 11
CODE = {'Z': 4, 'C': 5, 'B_': 8, 'S': 9, 'I': 10, 'J': 11}


def kind(t):
    """A type's text as a kind: ('c', class), ('p', code) or ('r', kind)."""
    if t.startswith('['):
        rest = t[1:]
        if rest in CODE:
            return ('p', CODE[rest])
        return ('r', kind(rest))
    name = {'I_': 'I', 'J_': 'J'}.get(t, t)
    return ('c', NAMES.index(name))


TYPES = [('p', c) for c in range(4, 12)] + [('c', i) for i in range(len(CLASSES))] + [kind(a) for a in ARRAYS]


def type_number(k):
    return TYPES.index(k)


def supers(c):
    """All classes and interfaces that a class is (JVMS 5.4, 6.5.checkcast)."""
    got, todo = set(), [c]
    while todo:
        n = todo.pop()
        if n in got:
            continue
        got.add(n)
        _, sup, ifs, _, itf = CLASSES[n]
        todo += [NAMES.index(x) for x in ifs]
        if sup is not None:
            todo.append(NAMES.index(sup))
        elif itf:
            todo.append(0)
    return got


def is_of(k, l):
    """6.5.checkcast: an object of kind k is one of kind l."""
    if k[0] == 'c' and l[0] == 'c':
        return l[1] in supers(k[1])
    if k[0] == 'c':
        return False
    if l[0] == 'c':
        return CLASSES[l[1]][0] in ('Object', 'Serializable', 'Cloneable')
    if k[0] == 'p' or l[0] == 'p':
        return k == l
    return is_of(k[1], l[1])


def fields(c):
    _, sup, _, own, _ = CLASSES[c]
    return (fields(NAMES.index(sup)) if sup is not None else []) + own


def width(t):
    return 2 if t == 'J' else 1


class Obj:
    def __init__(self, k, vals):
        self.k, self.vals = k, vals

    def words(self):
        """A type word, an array's length, and two words a long."""
        n = 1 if self.k[0] == 'c' else 2
        return n + sum(2 if v[0] == 'J' else 1 for v in self.vals)


NULL = ('R', None)


def zero(t):
    return ('J', 0) if t == 'J' else ('I', 0) if t in ('I', 'Z', 'C', 'B_', 'S') else NULL


def instance(c):
    return Obj(('c', c), [zero(t) for _, t in fields(c)])


def array_of(k, n):
    z = ('J', 0) if k == ('p', 11) else ('I', 0) if k[0] == 'p' else NULL
    return Obj(k, [z] * n)


def signed(v, bits):
    v %= 1 << bits
    return v - (1 << bits) if v >> (bits - 1) else v


# ---- code
class Builder:
    def __init__(self, heap, statics=None):
        self.code, self.table, self.pool, self.heap = [], [], [], heap
        self.max_locals = 8

    def index(self, what):
        if what not in self.pool:
            self.pool.append(what)
        return self.pool.index(what) + 1

    def op(self, code, *operands):
        self.code += [code] + list(operands)
        return self

    def pooled(self, code, what):
        i = self.index(what)
        return self.op(code, i >> 8, i & 255)

    def caught(self, f, *args, by=None):
        """The instruction raises: a handler behind it drops the object."""
        start = len(self.code)
        f(*args)
        end = len(self.code)
        self.table.append((start, end, end, by))
        self.op(87)
        return self

    # mnemonics
    def null(self): return self.op(1)
    def int(self, v):
        if -1 <= v <= 5: return self.op(3 + v)
        if -128 <= v < 128: return self.op(16, v & 255)
        if -32768 <= v < 32768: return self.op(17, (v >> 8) & 255, v & 255)
        return self.op(18, self.index(('int', v)))
    def long(self, v):
        if v in (0, 1): return self.op(9 + v)
        return self.pooled(20, ('long', v))
    def string(self): return self.op(18, self.index(('string',)))
    def iload(self, k): return self.op(21, k)
    def lload(self, k): return self.op(22, k)
    def aload(self, k): return self.op(25, k)
    def istore(self, k): return self.op(54, k)
    def lstore(self, k): return self.op(55, k)
    def astore(self, k): return self.op(58, k)
    def pop(self): return self.op(87)
    def pop2(self): return self.op(88)
    def dup(self): return self.op(89)
    def arr(self, code): return self.op(code)
    def getstatic(self, n): return self.pooled(178, ('static', n))
    def putstatic(self, n): return self.pooled(179, ('static', n))
    def getfield(self, c, n): return self.pooled(180, ('field', c, n))
    def putfield(self, c, n): return self.pooled(181, ('field', c, n))
    def new(self, c): return self.pooled(187, ('type', c))
    def newarray(self, t): return self.op(188, CODE[t])
    def anewarray(self, t): return self.pooled(189, ('type', t))
    def length(self): return self.op(190)
    def checkcast(self, t): return self.pooled(192, ('type', t))
    def instanceof(self, t): return self.pooled(193, ('type', t))
    def enter(self): return self.op(194)
    def leave(self): return self.op(195)
    def read(self): return self.op(254)
    def write(self): return self.op(255)
    def ret(self): return self.op(177)


def packed(code):
    code = code + [0] * (-len(code) % 4)
    return [int.from_bytes(bytes(code[i:i + 4]), 'big') for i in range(0, len(code), 4)]


def layout(b):
    """The words of the image, and the first objects with their places."""
    first = [instance(NAMES.index(f)) for f in FAULTS]
    units = [ord(c) for c in 'jop']
    first.append(Obj(('p', 5), [('I', u) for u in units]))
    text = instance(NAMES.index('String'))
    text.vals = [('R', 9)]
    first.append(text)
    nt, per = len(TYPES), (len(TYPES) + 31) // 32
    arrays, raises = 16, 24
    statics = 33
    static_at, p = {}, statics
    for n, t in STATICS:
        static_at[n] = p
        p += width(t)
    types = p
    tsize = 5 + per
    tables = types + nt * tsize  # method tables: one word, unused; interface tables: the same
    pool = tables + 1
    method = pool + 2 * (len(b.pool) + 1)
    code = packed(b.code)
    objects = method + 4 + 3 * len(b.table) + len(code)
    place, p = [], objects
    for o in first:
        place.append(p)
        p += o.words()
    total = p
    tp = lambda k: types + tsize * type_number(k)
    words = [0, method, pool, nt, raises, arrays, total] + [0] * 9
    words += [tp(('p', c)) for c in range(4, 12)] + place[:9]
    words += [0] * (types - statics)
    for t, k in enumerate(TYPES):
        is_class = k[0] == 'c' and not CLASSES[k[1]][4]
        inst = 1 + sum(width(f) for _, f in fields(k[1])) if is_class else 0
        comp = type_number(k[1]) + 1 if k[0] == 'r' and k[1] in TYPES else 0
        bits = [0] * per
        for u, l in enumerate(TYPES):
            if is_of(k, l):
                bits[u // 32] |= 1 << (u % 32)
        words += [t, inst, comp, tables, tables] + bits
    words += [0]
    words += [0, 0]
    for w in b.pool:
        if w[0] == 'int': words += [w[1] % M32, 0]
        elif w[0] == 'long': words += [w[1] % M64 >> 32, w[1] % M32]
        elif w[0] == 'string': words += [place[10], 0]
        elif w[0] == 'static': words += [static_at[w[1]], int(dict(STATICS)[w[1]] == 'J')]
        elif w[0] == 'field':
            fs = fields(NAMES.index(w[1]))
            i = [n for n, _ in fs].index(w[2])
            words += [1 + sum(width(t) for _, t in fs[:i]), int(fs[i][1] == 'J')]
        elif w[0] == 'type':
            k = kind(w[1])
            words += [tp(k), tp(('r', k)) if ('r', k) in TYPES else 0]
    words += [b.max_locals << 16 | 12, 0 << 16 | len(code), pool, len(b.table)]
    for s, e, t, by in b.table:
        words += [s << 16 | e, t, type_number(('c', NAMES.index(by))) + 1 if by else 0]
    words += code
    for o, at in zip(first, place):
        assert len(words) == at
        words += image(o, tp, lambda q: place[q])
    assert len(words) == total
    return words, first, place, total


def value_words(v, place):
    if v[0] == 'J': return [v[1] % M64 >> 32, v[1] % M32]
    if v[0] == 'I': return [v[1] % M32]
    return [0 if v[1] is None else place(v[1])]


def image(o, tp, place):
    head = [tp(o.k)] + ([] if o.k[0] == 'c' else [len(o.vals)])
    return head + [w for v in o.vals for w in value_words(v, place)]


class Raised(Exception):
    pass


def fault(name):
    raise Raised(FAULTS.index(name))


def run(name, b, out):
    assert len(b.code) < 4000, (name, len(b.code))
    words, objs, places, total = layout(b)
    size = total + b.heap
    out.append('course %s %d %s' % (name, size, ' '.join(map(str, words))))
    objs, places = list(objs), list(places)
    free = [total]
    statics = {n: zero(t) for n, t in STATICS}
    local, stack, pc = [None] * b.max_locals, [], 0
    output = []
    code = b.code
    place = lambda q: places[q]
    shown = [None]

    def make(o):
        if free[0] + o.words() > size:
            fault('OutOfMemoryError')
        objs.append(o)
        places.append(free[0])
        free[0] += o.words()
        return ('R', len(objs) - 1)

    def ref(v):
        if v[1] is None:
            fault('NullPointerException')
        return objs[v[1]]

    def show():
        ls, k = [], 0
        while k < len(local):
            v = local[k]
            if v is None:
                ls.append('?')
            else:
                ws = value_words(v, place)
                ls += map(str, ws)
                k += len(ws) - 1
            k += 1
        ops = [str(w) for v in stack for w in value_words(v, place)]
        if shown[0] != free[0]:
            shown[0] = free[0]
            out.append('free %d' % free[0])
        out.append(' '.join(['at', '0', str(pc)] + list(ls) + [':'] + ops))

    def step(op):
        nonlocal pc
        u1 = lambda: code[pc + 1]
        u2 = lambda: code[pc + 1] << 8 | code[pc + 2]
        pool = lambda i: b.pool[i - 1]
        push = stack.append
        pull = stack.pop
        if op == 1: push(NULL); return 1
        if 2 <= op <= 8: push(('I', op - 3)); return 1
        if op in (9, 10): push(('J', op - 9)); return 1
        if op == 16: push(('I', signed(u1(), 8))); return 2
        if op == 17: push(('I', signed(u2(), 16))); return 3
        if op == 18:
            w = pool(u1())
            push(('I', w[1]) if w[0] == 'int' else ('R', 10))
            return 2
        if op == 20: push(('J', pool(u2())[1])); return 3
        if op in (21, 22, 25): push(local[u1()]); return 2
        if op in (54, 55, 58):
            v = pull(); local[u1()] = v
            if v[0] == 'J': local[u1() + 1] = None
            return 2
        if op == 87: pull(); return 1
        if op == 88: pull(); return 1   # a long, here
        if op == 89: push(stack[-1]); return 1
        if op in (46, 47, 50, 51, 52, 53):
            i = pull()[1]; o = ref(pull())
            if not 0 <= i < len(o.vals): fault('ArrayIndexOutOfBoundsException')
            push(o.vals[i]); return 1
        if op in (79, 80, 83, 84, 85, 86):
            v = pull(); i = pull()[1]; o = ref(pull())
            if not 0 <= i < len(o.vals): fault('ArrayIndexOutOfBoundsException')
            if op == 83 and v[1] is not None and not is_of(objs[v[1]].k, o.k[1]): fault('ArrayStoreException')
            if op == 84: v = ('I', signed(v[1], 8))
            if op == 85: v = ('I', v[1] % 65536)
            if op == 86: v = ('I', signed(v[1], 16))
            o.vals[i] = v; return 1
        if op == 178: push(statics[pool(u2())[1]]); return 3
        if op == 179: statics[pool(u2())[1]] = pull(); return 3
        if op in (180, 181):
            _, c, n = pool(u2())
            i = [m for m, _ in fields(NAMES.index(c))].index(n)
            if op == 180: push(ref(pull()).vals[i]); return 3
            v = pull(); ref(pull()).vals[i] = v; return 3
        if op == 187: push(make(instance(kind(pool(u2())[1])[1]))); return 3
        if op in (188, 189):
            n = pull()[1]
            if n < 0: fault('NegativeArraySizeException')
            k = ('p', u1()) if op == 188 else ('r', kind(pool(u2())[1]))
            assert k in TYPES, k
            if free[0] + 2 + n > size: fault('OutOfMemoryError')
            push(make(array_of(k, n))); return 2 if op == 188 else 3
        if op == 190: push(('I', len(ref(pull()).vals))); return 1
        if op == 192:
            v = stack[-1]
            if v[1] is not None and not is_of(objs[v[1]].k, kind(pool(u2())[1])): fault('ClassCastException')
            return 3
        if op == 193:
            v = pull()
            push(('I', int(v[1] is not None and is_of(objs[v[1]].k, kind(pool(u2())[1]))))); return 3
        if op in (194, 195): ref(pull()); return 1
        if op == 254: push(('I', -1)); return 1
        if op == 255: output.append(pull()[1] % 256); return 1
        raise ValueError(op)

    while True:
        show()
        op = code[pc]
        if op == 177:
            break
        try:
            pc += step(op)
        except Raised as r:
            p = r.args[0]
            out.append('raise %d' % places[p])
            for s, e, t, by in b.table:
                if s <= pc < e and (by is None or is_of(objs[p].k, kind(by))):
                    pc = t
                    stack[:] = [('R', p)]
                    break
            else:
                raise
    out.append(' '.join(['ended'] + [str(x) for x in output]))


OUT = []


def case(name, heap, f):
    b = Builder(heap)
    f(b)
    b.ret()
    run(name, b, OUT)


# ---- the heap's end
def ten(b):
    for _ in range(10): b.new('A').pop()
    b.caught(b.new, 'A', by='OutOfMemoryError')
    b.caught(b.new, 'C')


def ten_and_more(b):
    for _ in range(10): b.new('A').pop()
    b.caught(b.new, 'A')
    for _ in range(4): b.new('C').pop()
    b.caught(b.new, 'C')
    b.int(0).caught(b.newarray, 'I')


def longs_fit(b):
    b.int(3).newarray('J').astore(0).aload(0).length().pop()
    b.int(0).caught(b.newarray, 'B_')
    b.caught(b.new, 'C')
    b.aload(0).int(2).long(-2).arr(80).aload(0).int(2).arr(47).pop2()


def longs_fail(b):
    b.int(3).caught(b.newarray, 'J', by='OutOfMemoryError')
    b.int(5).newarray('B_').astore(0).aload(0).length().pop()
    b.caught(b.new, 'C')


def sizes(b):
    for t in ('I', 'J', 'Z', 'C', 'B_', 'S'):
        b.int(-1).caught(b.newarray, t, by='NegativeArraySizeException')
        b.int(-2147483648).caught(b.newarray, t)
        b.int(2147483647).caught(b.newarray, t, by='OutOfMemoryError')
        b.int(0).newarray(t).length().pop()
    b.int(1073741824).caught(b.newarray, 'J')
    b.int(1073741823).caught(b.newarray, 'J')
    for t in ('A', 'I_', '[I'):
        b.int(-1).caught(b.anewarray, t)
        b.int(-2147483648).caught(b.anewarray, t)
        b.int(2147483647).caught(b.anewarray, t)
        b.int(1).anewarray(t).dup().int(0).arr(50).pop().length().pop()
    b.int(100).caught(b.newarray, 'I')


def negative_first(b):
    b.int(0).newarray('I').pop()
    b.int(0).caught(b.newarray, 'I', by='OutOfMemoryError')
    b.int(-1).caught(b.newarray, 'I', by='NegativeArraySizeException')
    b.int(-1).caught(b.anewarray, 'A', by='NegativeArraySizeException')


# ---- null
LOADS = {46: 'I', 47: 'J', 50: 'R', 51: 'B_', 52: 'C', 53: 'S'}
STORES = {79: 'I', 80: 'J', 83: 'R', 84: 'B_', 85: 'C', 86: 'S'}


def nulls(b):
    for op in LOADS:
        b.null().int(0).caught(b.arr, op, by='NullPointerException')
        b.null().int(-1).caught(b.arr, op)
    for op, t in STORES.items():
        b.null().int(-1)
        if t == 'J': b.long(1)
        elif t == 'R': b.null()
        else: b.int(7)
        b.caught(b.arr, op)
    for c, n, t in (('A', 'x', 'I'), ('A', 'y', 'J'), ('A', 'next', 'A'), ('B', 'z', 'I')):
        b.null().caught(b.getfield, c, n)
        b.null()
        if t == 'J': b.long(5)
        elif t == 'I': b.int(5)
        else: b.null()
        b.caught(b.putfield, c, n)
    b.null().caught(b.length)
    b.null().caught(b.enter)
    b.null().caught(b.leave)
    b.new('C').dup().enter().leave()


# ---- indexes
def value(b, t, n):
    if t == 'J': b.long(n)
    elif t == 'R': b.null()
    else: b.int(n)


def indexes(b):
    for op, t in STORES.items():
        b.int(3)
        if t == 'R': b.anewarray('A')
        else: b.newarray(t)
        b.astore(0)
        for i in (-1, 3, -2147483648, 2147483647):
            b.aload(0).int(i)
            value(b, t, 9)
            b.caught(b.arr, op, by='ArrayIndexOutOfBoundsException')
        for i in (0, 2):
            b.aload(0).int(i)
            value(b, t, 11 + i)
            b.arr(op)
        load = [k for k, v in LOADS.items() if v == t][0]
        for i in (-1, 3, -2147483648, 2147483647):
            b.aload(0).int(i).caught(b.arr, load)
        for i in (0, 1, 2):
            b.aload(0).int(i).arr(load)
            b.pop2() if t == 'J' else b.pop()


# ---- what arrays keep of a number
def narrowed(b):
    for t, store, load, vs in (('B_', 84, 51, (300, -1, 127, 128, -129)), ('Z', 84, 51, (1, 3, 256)), ('C', 85, 52, (-1, 65536, 65535)), ('S', 86, 53, (40000, -1, 32768, 65536)),
                               ('I', 79, 46, (-2147483648, 2147483647))):
        b.int(2).newarray(t).astore(0)
        for v in vs:
            b.aload(0).int(1).int(v).arr(store).aload(0).int(1).arr(load).pop().aload(0).int(0).arr(load).pop()
    b.int(2).newarray('J').astore(0)
    for v in (-2, 1 << 40, -(1 << 63), (1 << 63) - 1):
        b.aload(0).int(1).long(v).arr(80).aload(0).int(1).arr(47).pop2().aload(0).int(0).arr(47).pop2()


# ---- aastore
def stores(b):
    def array(t): b.int(2).anewarray(t).astore(1)
    def obj(t):
        if t is None: b.null()
        elif t.startswith('['):
            if t[1:] in CODE: b.int(1).newarray(t[1:])
            else: b.int(1).anewarray(t[1:])
        else: b.new(t)
        b.astore(2)
    for at, good, bad in (('A', ['A', 'B', 'D', None], ['C', 'Object', '[I', '[A']),
                          ('B', ['B', 'D'], ['A', 'C']),
                          ('I_', ['B', 'D', None], ['A', '[I', 'C']),
                          ('J_', ['D'], ['B']),
                          ('Object', ['C', '[I', '[A', '[[A', None], []),
                          ('Serializable', ['[I', '[A', 'Throwable'], ['A', 'Object']),
                          ('Cloneable', ['D', '[J', '[[B'], ['B', 'Throwable']),
                          ('[I', ['[I', None], ['[J', '[A', 'C', '[[I']),
                          ('[A', ['[A', '[B', '[D'], ['[Object', '[I', '[[A', 'A']),
                          ('[Object', ['[A', '[I_', '[[A', '[[I'], ['[I', 'Object']),
                          ('[I_', ['[B', '[J_', '[D'], ['[A'])):
        if kind('[' + at) not in TYPES:
            TYPES.append(kind('[' + at))
        array(at)
        for t in good:
            obj(t)
            b.aload(1).int(1).aload(2).arr(83).aload(1).int(1).arr(50).pop()
        for t in bad:
            obj(t)
            b.aload(1).int(0).aload(2).caught(b.arr, 83, by='ArrayStoreException')
            b.aload(1).int(0).arr(50).pop()
            b.aload(1).int(5).aload(2).caught(b.arr, 83, by='ArrayIndexOutOfBoundsException')
            b.null().int(5).aload(2).caught(b.arr, 83, by='NullPointerException')


# ---- checkcast and instanceof
def tests(b):
    made = [None, 'Object', 'A', 'B', 'C', 'D', 'Throwable', '[I', '[J', '[A', '[B', '[D', '[I_', '[Object', '[[I', '[[A', '[[B', '[[[I', '[String']
    asked = ['Object', 'A', 'B', 'D', 'I_', 'J_', 'Serializable', 'Cloneable', '[I', '[A', '[Object', '[I_', '[[I', '[[A', '[[Object']
    for t in made:
        if t is None: b.null()
        elif t.startswith('['):
            if t[1:] in CODE: b.int(1).newarray(t[1:])
            else: b.int(1).anewarray(t[1:])
        else: b.new(t)
        b.astore(0)
        for a in asked:
            b.aload(0).instanceof(a).pop()
            b.aload(0)
            if t is None or is_of(kind(t), kind(a)): b.checkcast(a).pop()
            else: b.caught(b.checkcast, a, by='ClassCastException')


# ---- fields and static fields
def members(b):
    b.int(7).putstatic('count').long(-3).putstatic('total').int(9).putstatic('last')
    b.getstatic('count').pop().getstatic('total').pop2().getstatic('last').pop().getstatic('root').pop()
    b.new('B').dup().putstatic('root').astore(0)
    b.int(-8).putstatic('count').getstatic('total').pop2()
    b.long(1 << 33).putstatic('total').getstatic('count').pop().getstatic('last').pop().getstatic('total').pop2().getstatic('root').pop()
    b.aload(0).int(5).putfield('A', 'x').aload(0).long(-(1 << 40) - 1).putfield('A', 'y').aload(0).aload(0).putfield('A', 'next').aload(0).int(6).putfield('B', 'z')
    b.aload(0).int(2).newarray('I').putfield('B', 'data')
    b.aload(0).getfield('A', 'x').pop().aload(0).getfield('A', 'y').pop2().aload(0).getfield('A', 'next').pop().aload(0).getfield('B', 'z').pop().aload(0).getfield('B', 'data').length().pop()
    b.new('D').astore(1).aload(1).long(77).putfield('D', 'w').aload(1).getfield('D', 'w').pop2().aload(1).getfield('B', 'data').pop().aload(1).getfield('A', 'y').pop2()
    b.aload(0).long(0).putfield('A', 'y').aload(0).getfield('A', 'x').pop().aload(0).getfield('A', 'next').pop()
    b.string().astore(2).aload(2).instanceof('String').pop().aload(2).instanceof('Serializable').pop().aload(2).checkcast('Object').pop()
    b.aload(2).getfield('String', 'chars').dup().length().pop().int(1).arr(52).write()
    b.read().dup().write().istore(3)


case('ten', 50, ten)
case('ten_and_more', 54, ten_and_more)
case('longs_fit', 8, longs_fit)
case('longs_fail', 7, longs_fail)
case('sizes', 60, sizes)
case('negative_first', 2, negative_first)
case('nulls', 10, nulls)
case('indexes', 100, indexes)
case('narrowed', 100, narrowed)
case('stores', 1000, stores)
case('tests', 200, tests)
case('members', 100, members)

if __name__ == '__main__':
    open(sys.argv[1], 'w').write('\n'.join(OUT) + '\n')
