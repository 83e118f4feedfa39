"""Class files (JVM Specification SE 8, chapter 4), and where instructions begin (chapter 6). Not proved: a tool."""
import struct


class Class:
    """a class: its pool of entries (tag, ..) by index, flags, names, fields, methods, and the names and bytes of its attributes"""

    def __init__(self):
        self.pool = [None]
        self.major = 52
        self.attributes = []


def read_class(data):
    at = 0

    def u(n):
        nonlocal at
        v = int.from_bytes(data[at:at + n], 'big')
        at += n
        return v
    c = Class()
    assert u(4) == 0xCAFEBABE
    u(2)
    c.major = u(2)
    count = u(2)
    while len(c.pool) < count:
        tag = u(1)
        if tag == 1:
            n = u(2)
            c.pool.append((1, data[at:at + n]))
            at += n
        elif tag in (3, 4):
            c.pool.append((tag, u(4)))
        elif tag in (5, 6):
            c.pool.append((tag, u(8)))
            c.pool.append(None)
        elif tag in (7, 8, 16):
            c.pool.append((tag, u(2)))
        elif tag in (9, 10, 11, 12, 18):
            c.pool.append((tag, u(2), u(2)))
        elif tag == 15:
            c.pool.append((tag, u(1), u(2)))
        else:
            raise ValueError(tag)
    c.flags = u(2)
    c.name = class_name(c, u(2))
    s = u(2)
    c.super_name = class_name(c, s) if s else None
    c.interfaces = [class_name(c, u(2)) for _ in range(u(2))]

    def attributes():
        found = []
        for _ in range(u(2)):
            name = c.pool[u(2)][1]
            n = u(4)
            nonlocal at
            found.append((name, data[at:at + n]))
            at += n
        return found

    def members():
        found = []
        for _ in range(u(2)):
            m = {'flags': u(2), 'name': c.pool[u(2)][1], 'descriptor': c.pool[u(2)][1]}
            for name, body in attributes():
                if name == b'ConstantValue':
                    m['constant'] = int.from_bytes(body, 'big')
                if name == b'Code':
                    m['code'] = read_code(body)
            found.append(m)
        return found
    c.fields = members()
    c.methods = members()
    c.attributes = attributes()
    return c


def read_code(b):
    stack, local, n = struct.unpack('>HHI', b[:8])
    code = b[8:8 + n]
    at = 8 + n
    k = int.from_bytes(b[at:at + 2], 'big')
    handlers = [struct.unpack('>HHHH', b[at + 2 + 8 * i:at + 10 + 8 * i]) for i in range(k)]
    return {'stack': stack, 'locals': local, 'code': code, 'handlers': handlers, 'attributes': b[at + 2 + 8 * k:]}


def class_name(c, index):
    return c.pool[c.pool[index][1]][1]


# ---- instructions (chapter 6)

LENGTHS = {
    **{op: 1 for op in range(256)},
    16: 2, 17: 3, 18: 2, 19: 3, 20: 3, **{op: 2 for op in (*range(21, 26), *range(54, 59))}, 132: 3,
    **{op: 3 for op in range(153, 169)}, 169: 2, **{op: 3 for op in range(178, 185)}, 185: 5, 186: 5,
    187: 3, 188: 2, 189: 3, 192: 3, 193: 3, 197: 4, 198: 3, 199: 3, 200: 5, 201: 5,
}


def instructions(code):
    """the place, the opcode and the index into the pool, if there is one, of each instruction"""
    at = 0
    while at < len(code):
        op = code[at]
        index = None
        if op == 18:
            index = code[at + 1]
        elif op in (19, 20, *range(178, 186), 187, 189, 192, 193):
            index = int.from_bytes(code[at + 1:at + 3], 'big')
        yield at, op, index
        if op in (170, 171):
            p = (at + 4) // 4 * 4

            def s4(i):
                return int.from_bytes(code[i:i + 4], 'big', signed=True)
            at = p + 12 + 4 * (s4(p + 8) - s4(p + 4) + 1) if op == 170 else p + 8 + 8 * s4(p + 4)
        elif op == 196:
            at += 6 if code[at + 1] == 132 else 4
        else:
            at += LENGTHS[op]


# ---- descriptors

def parameters(descriptor):
    at, out = 1, []
    while descriptor[at:at + 1] != b')':
        start = at
        while descriptor[at:at + 1] == b'[':
            at += 1
        at = descriptor.index(b';', at) + 1 if descriptor[at:at + 1] == b'L' else at + 1
        out.append(descriptor[start:at])
    return out


def width(descriptor):
    return 2 if descriptor == b'J' else 1
