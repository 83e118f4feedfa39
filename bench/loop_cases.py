"""Methods of some 65,535 bytes in which much is to be searched for the loops that count; loops.py has what each is."""
import struct

import sections  # noqa: F401  (where the modules below are found)
from made import ClassFile

NOP, ICONST_0, ICONST_1, ILOAD_0, ILOAD_1, ISTORE_0, BIPUSH = 0, 3, 4, 26, 27, 59, 16
IFEQ, IFNE, IFGE, IF_ICMPLT, IF_ICMPGE = 153, 154, 156, 161, 162
GOTO, TABLESWITCH, RETURN, WIDE, GOTO_W = 167, 170, 177, 196, 200
ILOAD, ISTORE, IINC = 21, 54, 132
STATIC, SHORT_FRAME, LONGEST = 9, 64, 65535


class Code:
    """code with labels, to which branches are put before these are placed"""

    def __init__(self):
        self.code, self.labels, self.branches, self.framed = bytearray(), {}, [], set()

    def put(self, *codes):
        self.code += bytes(codes)

    def label(self, name, framed=False):
        self.labels[name] = len(self.code)
        self.framed |= {name} if framed else set()

    def branch(self, opcode, name):
        self.branches.append((len(self.code), len(self.code) + 1, '>h', name))
        self.put(opcode, 0, 0)
        self.framed.add(name)

    def far(self, name):
        self.branches.append((len(self.code), len(self.code) + 1, '>i', name))
        self.put(GOTO_W, 0, 0, 0, 0)
        self.framed.add(name)

    def switch(self, default, names):
        at = len(self.code)
        self.put(TABLESWITCH, *bytes((-at - 1) % 4))
        first = len(self.code)
        self.code += bytes(4) + struct.pack('>ii', 0, len(names) - 1) + bytes(4 * len(names))
        self.branches += [(at, first, '>i', default)]
        self.branches += [(at, first + 12 + 4 * number, '>i', name) for number, name in enumerate(names)]
        self.framed |= {default, *names}

    def wide(self, opcode, local, *step):
        self.put(WIDE, opcode, *divmod(local, 256), *step)

    def method(self, ints, locals_=None):
        """the class file of a method f of this code with so many ints, which are its parameters where it has no other local variables"""
        for at, field, form, name in self.branches:
            struct.pack_into(form, self.code, field, self.labels[name] - at)
        assert len(self.code) <= LONGEST
        frames, before = [], -1
        for place in sorted({self.labels[name] for name in self.framed}):
            delta, before = place - before - 1, place
            if locals_ and not frames:
                frames.append(struct.pack('>BHH', 255, delta, ints) + b'\1' * ints + b'\0\0')
            else:
                frames.append(bytes([delta]) if delta < SHORT_FRAME else struct.pack('>BH', 251, delta))
        made = ClassFile('M')
        made.method(STATIC, 'f', '()V' if locals_ else '(%s)V' % ('I' * ints), (4, locals_ or ints, bytes(self.code), [], frames))
        made.method(STATIC, 'main', '([Ljava/lang/String;)V', (0, 1, bytes([RETURN]), [], []))
        return made.data()


def counting(code, key, local, step):
    """a loop that counts a local variable up to ten, with its step where this puts it"""
    code.put(ICONST_0, ISTORE, local)
    code.label((key, 'h'))
    code.put(ILOAD, local, BIPUSH, 10)
    code.branch(IF_ICMPGE, (key, 'e'))
    step()
    code.branch(GOTO, (key, 'h'))
    code.label((key, 'e'))


def small(count=3800):
    """one behind the other"""
    code = Code()
    for number in range(count):
        counting(code, number, 0, lambda: code.put(IINC, 0, 1))
    code.put(RETURN)
    return code.method(4)


def turned(count=7200):
    """the same, with the test behind the step"""
    code = Code()
    for number in range(count):
        code.label(number)
        code.put(IINC, 0, 1, ILOAD_0, BIPUSH, 10)
        code.branch(IF_ICMPLT, number)
    code.put(RETURN)
    return code.method(4)


def nests(depth):
    """within one another"""
    code = Code()

    def level(key, local):
        counting(code, (key, local), local, lambda: (local + 1 < depth and level(key, local + 1), code.put(IINC, local, 1)))

    for key in range(65000 // (17 * depth)):
        level(key, 0)
    code.put(RETURN)
    return code.method(255)


def arms(count=16000):
    """one loop with two arms of tests that leave it"""
    code = Code()
    code.put(ICONST_0, ISTORE_0)
    code.far('h')
    code.label('out', True)
    code.put(RETURN)
    code.label('h')
    code.put(ILOAD_1)
    code.branch(IFEQ, 'second')
    code.far('first')
    code.label('second')
    for _ in range(count // 2):
        code.put(ILOAD_0)
        code.branch(IFGE, 'out')
    code.far('joined')
    code.label('first')
    for _ in range(count // 2):
        code.put(ILOAD_0)
        code.branch(IFGE, 'end')
    code.label('joined')
    code.put(IINC, 0, 1)
    code.far('h')
    code.label('end')
    code.put(RETURN)
    return code.method(4)


def variables(count=3200, stored=True, idle=0):
    """one loop with a test and a step of each of many local variables, behind so many instructions that do nothing"""
    code = Code()
    for local in range(count if stored else 0):
        code.put(ICONST_0)
        code.wide(ISTORE, local)
    code.put(*bytes(idle))
    code.far('h')
    code.label('out', True)
    code.put(RETURN)
    code.label('h')
    for local in range(count):
        code.wide(ILOAD, local)
        code.branch(IFGE, 'out' if local < count // 2 else 'end')
        code.wide(IINC, local, 0, 1)
    code.far('h')
    code.label('end')
    code.put(RETURN)
    return code.method(count, count)


def switched(count=5000, idle=16000):
    """many loops behind one switch"""
    code = Code()
    code.put(ICONST_0, ISTORE_0, *bytes(idle), ILOAD_1)
    code.switch('end', list(range(count)))
    for number in range(count):
        code.label(number)
        code.put(ILOAD_0)
        code.branch(IFNE, number)
    code.label('end')
    code.put(RETURN)
    return code.method(4)


def spread(count=3000):
    """loops whose steps are far from their tests"""
    code = Code()
    for number in range(count):
        code.put(ICONST_0, ISTORE_0)
        code.label(('h', number))
        code.put(ILOAD_0, BIPUSH, 10)
        code.branch(IF_ICMPGE, ('e', number))
        code.far(('step', number))
        code.label(('e', number))
    code.far('end')
    for number in range(count):
        code.label(('step', number))
        code.put(IINC, 0, 1)
        code.far(('h', number))
    code.label('end')
    code.put(RETURN)
    return code.method(4)


def chain(count=13000):
    """local variables each of which is stored into the next one, from the last line of the code to the first"""
    code = Code()
    code.put(ICONST_1, ISTORE_0)
    code.far(0)
    for number in reversed(range(count)):
        code.label(number)
        code.put(ILOAD_0, ISTORE_0)
        code.branch(GOTO, number + 1) if number + 1 < count else code.far('end')
    code.label('end', True)
    code.put(RETURN)
    return code.method(4)


MADE = {'small': small, 'turned': turned, 'nests50': lambda: nests(50), 'nests100': lambda: nests(100), 'arms': arms, 'variables': variables,
        'stored': lambda: variables(2500, idle=20000), 'switched': switched, 'spread': spread, 'chain': chain}
