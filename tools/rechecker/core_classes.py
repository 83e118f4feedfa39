"""The classes that the machine knows, before those of the files, and `jop/Boot`, behind them. Not proved: a tool."""
from .class_files import Class


class Maker:
    """a class whose pool has its entries in the order of first mention, each followed by those that it names"""

    def __init__(self, flags, name, super_name, interfaces):
        self.c = Class()
        self.index = {}
        self.c.flags = flags
        self.c.name = name
        self.c.super_name = super_name
        self.c.interfaces = interfaces
        self.c.fields = []
        self.c.methods = []
        self.cls(name)
        if super_name:
            self.cls(super_name)
        for i in interfaces:
            self.cls(i)

    def add(self, key, children):
        if key in self.index:
            return self.index[key]
        i = len(self.c.pool)
        self.c.pool.append(None)
        self.index[key] = i
        self.c.pool[i] = (key[0],) + tuple(child() for child in children)
        return i

    def utf8(self, text):
        if (1, text) not in self.index:
            self.index[(1, text)] = len(self.c.pool)
            self.c.pool.append((1, text))
        return self.index[(1, text)]

    def cls(self, name):
        return self.add((7, name), [lambda: self.utf8(name)])

    def name_and_type(self, name, descriptor):
        return self.add((12, name, descriptor), [lambda: self.utf8(name), lambda: self.utf8(descriptor)])

    def ref(self, tag, owner, name, descriptor):
        children = [lambda: self.cls(owner), lambda: self.name_and_type(name, descriptor)]
        return self.add((tag, owner, name, descriptor), children)

    def field(self, flags, name, descriptor):
        self.utf8(name)
        self.utf8(descriptor)
        self.c.fields.append({'flags': flags, 'name': name, 'descriptor': descriptor})

    def method(self, flags, name, descriptor, stack, local, parts):
        """parts: bytes, or functions that give an index of two bytes"""
        self.utf8(name)
        self.utf8(descriptor)
        self.utf8(b'Code')
        code = b''
        for p in parts:
            code += p if isinstance(p, bytes) else p().to_bytes(2, 'big')
        body = {'stack': stack, 'locals': local, 'code': code, 'handlers': []}
        self.c.methods.append({'flags': flags, 'name': name, 'descriptor': descriptor, 'code': body})


O = b'java/lang/Object'
# The superclass of each throwable class, without the package `java/lang`.
THROWABLES = {
    'Exception': 'Throwable', 'RuntimeException': 'Exception', 'Error': 'Throwable',
    'ArithmeticException': 'RuntimeException', 'ArrayStoreException': 'RuntimeException',
    'ClassCastException': 'RuntimeException', 'IllegalArgumentException': 'RuntimeException',
    'IllegalStateException': 'RuntimeException', 'IndexOutOfBoundsException': 'RuntimeException',
    'ArrayIndexOutOfBoundsException': 'IndexOutOfBoundsException', 'NegativeArraySizeException': 'RuntimeException',
    'NullPointerException': 'RuntimeException', 'LinkageError': 'Error', 'IncompatibleClassChangeError': 'LinkageError',
    'VirtualMachineError': 'Error', 'OutOfMemoryError': 'VirtualMachineError',
    'StackOverflowError': 'VirtualMachineError',
}


def core_classes():
    """the classes that stand before those of the files"""
    out = []
    m = Maker(0x21, O, None, [])
    m.method(1, b'<init>', b'()V', 0, 1, [b'\xb1'])
    out.append(m.c)
    for name in (b'java/io/Serializable', b'java/lang/Cloneable'):
        out.append(Maker(0x601, name, O, []).c)
    s = b'java/lang/String'
    m = Maker(0x31, s, O, [b'java/io/Serializable'])
    m.field(0x12, b'chars', b'[C')

    def chars():
        return m.ref(9, s, b'chars', b'[C')
    m.method(1, b'length', b'()I', 1, 1, [b'\x2a\xb4', chars, b'\xbe\xac'])
    m.method(1, b'charAt', b'(I)C', 2, 2, [b'\x2a\xb4', chars, b'\x1b\x34\xac'])
    out.append(m.c)
    t = b'java/lang/Throwable'
    S = b'(Ljava/lang/String;)V'
    k = Maker(0x21, t, O, [b'java/io/Serializable'])
    k.field(2, b'message', b'Ljava/lang/String;')

    def message():
        return k.ref(9, t, b'message', b'Ljava/lang/String;')

    def object_init():
        return k.ref(10, O, b'<init>', b'()V')
    k.method(1, b'<init>', b'()V', 1, 1, [b'\x2a\xb7', object_init, b'\xb1'])
    k.method(1, b'<init>', S, 2, 2, [b'\x2a\xb7', object_init, b'\x2a\x2b\xb5', message, b'\xb1'])
    k.method(1, b'getMessage', b'()Ljava/lang/String;', 1, 1, [b'\x2a\xb4', message, b'\xb0'])
    out.append(k.c)
    for name, sup in THROWABLES.items():
        n, u = b'java/lang/' + name.encode(), b'java/lang/' + sup.encode()
        e = Maker(0x421 if name == 'VirtualMachineError' else 0x21, n, u, [])
        e.method(1, b'<init>', b'()V', 1, 1, [b'\x2a\xb7', lambda: e.ref(10, u, b'<init>', b'()V'), b'\xb1'])
        e.method(1, b'<init>', S, 2, 2, [b'\x2a\x2b\xb7', lambda: e.ref(10, u, b'<init>', S), b'\xb1'])
        out.append(e.c)
    io = Maker(0x31, b'jop/Io', O, [])
    io.method(9, b'read', b'()I', 1, 0, [b'\xfe\xac'])
    io.method(9, b'write', b'(I)V', 1, 1, [b'\x1a\xff\xb1'])
    out.append(io.c)
    return out


def boot_class(classes, by_name, main):
    """the class whose method calls the initialisers of these classes, in their order, and then main of a class"""
    had, calls = set(), []

    def turn(c):
        if c.name in had:
            return
        had.add(c.name)
        if c.super_name and c.super_name not in had:
            turn(by_name[c.super_name])
        if any(m['name'] == b'<clinit>' and m['descriptor'] == b'()V' and m['flags'] & 8 for m in c.methods):
            calls.append(c.name)
    for c in classes:
        turn(c)
    b = Maker(0x30, b'jop/Boot', O, [])
    parts = []
    for name in calls:
        parts += [b'\xb8', (lambda n: lambda: b.ref(10, n, b'<clinit>', b'()V'))(name)]
    parts += [b'\x03\xbd', lambda: b.cls(b'java/lang/String')]
    parts += [b'\xb8', lambda: b.ref(10, main, b'main', b'([Ljava/lang/String;)V'), b'\xb1']
    b.method(0xA, b'boot', b'()V', 1, 0, parts)
    return b.c
