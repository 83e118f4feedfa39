"""Programs of random methods, which verify, for comparison: switches, wide branches, nested and overlapping exception ranges, handlers within their own range, dead code,
calls that are selected among classes, rings of calls.

Each method takes two ints and an array of ints, in locals that keep their types, and has no operands where blocks of its code begin; a handler begins with what
it catches. So a frame has the locals of the method's first one.
"""
import os
import random
import struct
import sys

sys.path.append(os.path.join(os.path.dirname(os.path.abspath(__file__)), '..'))
import class_writer as writer  # noqa: E402

PUBLIC, PRIVATE, PROTECTED, STATIC, ABSTRACT, INTERFACE = 1, 2, 4, 8, 0x400, 0x601
OBJECT, THROWABLE = 'java/lang/Object', 'java/lang/Throwable'
MAIN = '([Ljava/lang/String;)V'
CAUGHT = [THROWABLE, THROWABLE, 'java/lang/Exception', 'java/lang/RuntimeException', 'java/lang/Error']


class ClassFile(writer.Pool):
    """a class file (4.1)"""

    def __init__(self, name, above=OBJECT, interfaces=(), flags=0x21, major=52):
        super().__init__(pair_first=True)
        self.methods, self.fields = [], []
        self.name, self.flags, self.major = name, flags, major
        self.this, self.above = self.cls(name), self.cls(above)
        self.interfaces = [self.cls(each) for each in interfaces]

    def field(self, flags, name, descriptor):
        self.fields.append(writer.member(flags, self.utf8(name), self.utf8(descriptor)))

    def constant(self, flags, name, value):
        """a field of an int, with a constant or without one"""
        found = [] if value is None else [self.attribute('ConstantValue', writer.u2(self.int(value)))]
        self.fields.append(writer.member(flags, self.utf8(name), self.utf8('I'), found))

    def method(self, flags, name, descriptor, body=None):
        """a method; its body is max_stack, max_locals, code, the exception table and the frames"""
        named = self.utf8(name), self.utf8(descriptor)
        self.methods.append(writer.member(flags, *named, [] if body is None else [self.attribute('Code', self.code(*body))]))

    def attribute(self, name, data):
        return writer.attribute(self.utf8(name), data)

    def code(self, stack, local, code, table, frames):
        maps = [self.attribute('StackMapTable', writer.u2(len(frames)) + b''.join(frames))] if frames else []
        return writer.code(stack, local, code, table, maps)

    def data(self):
        return writer.class_file(self.pool_bytes(), self.flags, self.this, self.above, self.interfaces, self.fields, self.methods, version=(0, self.major))


def frames_at(places):
    """the frames at these places, each with the first one's locals, and with an object of a class or without operands"""
    frames, before = [], -1
    for place in sorted(places):
        delta, caught = place - before - 1, places[place]
        if caught is None:
            frames.append(bytes([delta]) if delta < 64 else struct.pack('>BH', 251, delta))
        else:
            front = bytes([64 + delta]) if delta < 64 else struct.pack('>BH', 247, delta)
            frames.append(front + struct.pack('>BH', 7, caught))
        before = place
    return frames


class Block:
    """a piece of code: what runs in it one behind the other, how it ends, and the class of what it catches"""

    def __init__(self, caught):
        self.caught, self.pieces, self.end, self.targets, self.offsets = caught, [], b'', [], None


class Coder:
    """makes the code of a method; `calls` are what it may call"""

    def __init__(self, chance, made, first_local, result, calls):
        self.chance, self.made, self.result, self.calls = chance, made, result, calls
        self.x, self.y, self.array, self.free = range(first_local, first_local + 4)
        self.first_local = first_local

    # ---- pieces that leave no operands

    def local(self, op, n):
        """loads or stores a local, in one of its forms; op is that of two bytes"""
        short = {21: 26, 25: 42, 54: 59, 58: 75}[op]
        forms = [bytes([op, n]), b'\xc4' + struct.pack('>BH', op, n)] + ([bytes([short + n])] if n < 4 else [])
        return self.chance.choice([*forms, forms[-1], forms[-1]])

    def load(self, n):
        return self.local(21, n)

    def arguments(self):
        return self.load(self.x) + self.load(self.y) + self.local(25, self.array)

    def plain(self):
        """a piece that raises nothing"""
        k, number = self.made, self.chance.randrange(-9, 9)
        return self.chance.choice([
            lambda: b'\x00',
            lambda: struct.pack('>BBb', 0x84, self.x, number),
            lambda: struct.pack('>BBHh', 0xc4, 0x84, self.y, number * 100),
            lambda: self.load(self.x) + self.local(54, self.y),
            lambda: self.load(self.x) + self.load(self.y) + b'\x60' + self.local(54, self.x),
            lambda: struct.pack('>Bb', 0x10, number) + b'\x57',
            lambda: struct.pack('>Bh', 0x11, number) + b'\x57',
            lambda: bytes([0x12, k.int(70000)]) + b'\x57',
            lambda: b'\x0a\x58',
            lambda: self.load(self.x) + b'\x85\x75\x88' + self.local(54, self.y),
            lambda: b'\xb2' + struct.pack('>H', k.member(9, 'Main', 's', 'I')) + b'\x57',
            lambda: self.load(self.x) + b'\xb3' + struct.pack('>H', k.member(9, 'Main', 's', 'I')),
            lambda: self.local(25, self.array) + b'\xc1' + struct.pack('>H', k.cls(OBJECT)) + b'\x57',
        ])()

    def raising(self):
        """a piece that may raise"""
        k = self.made
        return self.chance.choice([
            lambda: self.load(self.x) + self.load(self.y) + self.chance.choice([b'\x6c', b'\x70']) + b'\x57',
            lambda: self.local(25, self.array) + self.load(self.x) + b'\x2e\x57',
            lambda: self.local(25, self.array) + self.load(self.x) + self.load(self.y) + b'\x4f',
            lambda: self.local(25, self.array) + b'\xbe\x57',
            lambda: b'\xbb' + struct.pack('>H', k.cls(OBJECT)) + b'\x59\xb7' + struct.pack('>H', k.member(10, OBJECT, '<init>', '()V')) + b'\x57',
            lambda: b'\x08\xbc\x0a\x57',
            lambda: b'\x05\xbd' + struct.pack('>H', k.cls(OBJECT)) + b'\x57',
            lambda: self.local(25, self.array) + self.chance.choice([b'\xc2', b'\xc3']),
            lambda: self.local(25, self.array) + b'\xc0' + struct.pack('>H', k.cls('[I')) + b'\x57',
            lambda: b'\x01\xb4' + struct.pack('>H', k.member(9, 'A', 'k', 'I')) + b'\x57',
            lambda: b'\x01\x03\xb5' + struct.pack('>H', k.member(9, 'A', 'k', 'I')),
        ])()

    def call(self):
        """a call of one of the methods that may be called"""
        return self.call_of(*self.chance.choice(self.calls))

    def call_of(self, how, owner, name, descriptor):
        entry = struct.pack('>H', self.made.member(11 if how == 'interface' else 10, owner, name, descriptor))
        after = b'\x57' if descriptor[-1] == 'I' else b''
        if how == 'static':
            return self.arguments() + b'\xb8' + entry + after
        if how == 'special':
            return b'\x2a' + self.arguments() + b'\xb7' + entry + after
        if how == 'interface':
            return b'\x01' + self.arguments() + b'\xb9' + entry + b'\x04\x00' + after
        return b'\x01' + self.arguments() + b'\xb6' + entry + after

    def piece(self):
        kind = self.chance.random()
        if kind < 0.3 and self.calls:
            return self.call()
        return self.raising() if kind < 0.6 else self.plain()

    # ---- blocks

    def first_piece(self):
        """takes what a handler caught"""
        store, load = self.local(58, self.free), self.local(25, self.free)
        return self.chance.choice([b'\x57', store, store + load + b'\x57', b'\x59' + store + b'\x57', store + self.local(25, self.array) + b'\xc3'])

    def aimed_at(self, number, blocks):
        """the blocks to which a block may branch: any, or those that keep each loop of `loops` with its first block as the only way in"""
        ordinary = [n for n, each in enumerate(blocks) if each.caught is None]
        if not self.loops:
            return ordinary
        ending = [first for first, last in self.loops if last == number]
        if ending and self.chance.random() < 0.8:
            return ending
        inside = [n for n in ordinary if n > number and all(first <= number <= last or n == first for first, last in self.loops if first <= n <= last)]
        return inside

    def loops_of(self, count):
        """the first and last blocks of loops among so many blocks, of which each two lie within one another or apart"""
        loops = []
        for _ in range(self.chance.choice([1, 2, 4, 8])):
            first = self.chance.randrange(count - 1)
            last = self.chance.randrange(first, count - 1)
            if all(last < a or b < first or (a < first and last <= b) or (first < a and b <= last) for a, b in loops):
                loops.append((first, last))
        return loops

    def ends(self, number, blocks):
        """gives the block its end"""
        block, chance = blocks[number], self.chance
        ordinary = self.aimed_at(number, blocks)
        behind = number + 1 if number + 1 < len(blocks) else None
        kinds = ['goto', 'wide', 'return', 'return', 'throw', 'table', 'lookup', 'handler']
        if behind is not None and blocks[behind].caught is None:
            kinds += ['falls', 'falls', 'one', 'one', 'two', 'null', 'same', 'next'] * (3 if self.loops else 1)
        kind = chance.choice(kinds)
        if any(number == last for first, last in self.loops) and behind is not None and chance.random() < 0.8:
            kind = chance.choice(['one', 'two', 'null', 'table'])
        if not ordinary and kind not in ('falls', 'throw', 'next', 'handler'):
            kind = 'return'
        if block.caught is not None and chance.random() < 0.2:
            block.pieces, block.end = [], b'\xbf'
        elif kind == 'falls':
            block.pieces.append(self.piece())
        elif kind in ('goto', 'wide'):
            block.end, block.targets = bytes([0xa7 if kind == 'goto' else 0xc8]), [chance.choice(ordinary)]
        elif kind == 'return':
            block.end = self.load(self.x) + b'\xac' if self.result else b'\xb1'
        elif kind == 'throw':
            block.end = b'\x01\xbf'
        elif kind == 'one':
            block.end, block.targets = self.load(self.x) + bytes([chance.randrange(0x99, 0x9f)]), [chance.choice(ordinary)]
        elif kind == 'next':
            block.end, block.targets = self.load(self.x) + bytes([chance.randrange(0x99, 0x9f)]), [behind]
        elif kind == 'two':
            block.end, block.targets = self.load(self.x) + self.load(self.y) + bytes([chance.randrange(0x9f, 0xa5)]), [chance.choice(ordinary)]
        elif kind == 'null':
            block.end, block.targets = self.local(25, self.array) + chance.choice([b'\xc6', b'\xc7']), [chance.choice(ordinary)]
        elif kind == 'same':
            block.end, block.targets = self.local(25, self.array) * 2 + chance.choice([b'\xa5', b'\xa6']), [chance.choice(ordinary)]
        elif kind == 'handler':
            handlers = [n for n, each in enumerate(blocks) if each.caught is not None]
            if handlers:
                block.end, block.targets = b'\x01\xa7', [chance.choice(handlers)]
            else:
                block.end = b'\x01\xbf'
        else:
            count = chance.choice([0, 1, 2, 3, 5]) if kind == 'lookup' else chance.choice([1, 2, 4])
            block.end = self.load(self.x) + (b'\xaa' if kind == 'table' else b'\xab')
            block.targets = [chance.choice(ordinary) for _ in range(count + 1)]

    def body(self, wanted=None):
        """the parts of the method's body, in which there is a call that is wanted"""
        chance = self.chance
        count, handlers = chance.randrange(3, 9), chance.choice([0, 1, 1, 2, 2, 3])
        blocks = [Block(None) for _ in range(count - 1)] + [Block(chance.choice(CAUGHT)) for _ in range(handlers)]
        self.loops = self.loops_of(count) if chance.random() < 0.7 else []
        if not self.loops:
            chance.shuffle(blocks)
        blocks.insert(0, Block(None))
        for number, block in enumerate(blocks):
            if block.caught is not None:
                block.pieces.append(self.first_piece())
            block.pieces += [self.piece() for _ in range(chance.choice([0, 1, 1, 2, 3]))]
            if wanted is not None and number == 0:
                block.pieces.append(self.call_of(*wanted))
            self.ends(number, blocks)
        return self.assembled(blocks)

    def assembled(self, blocks):
        """the code of blocks, with exception entries for the handlers and the frames that are needed"""
        code, starts, switches = b'', [], []
        for block in blocks:
            starts.append(len(code))
            code += b''.join(block.pieces)
            at = len(code) + len(block.end) - 1
            block.at = at
            if block.end[-1:] in (b'\xaa', b'\xab') and len(block.end) > 1:
                size = 3 - at % 4 + (12 if block.end[-1] == 0xaa else 8) + (4 if block.end[-1] == 0xaa else 8) * (len(block.targets) - 1)
            else:
                size = (4 if block.end == b'\xc8' else 2) if block.targets else 0
            code += block.end + bytes(size)
        code = bytearray(code)
        for block in blocks:
            self.aims(code, block, [starts[target] - block.at for target in block.targets])
        code = bytes(code)
        table, needed = self.table(code, blocks, starts)
        for number, block in enumerate(blocks):
            needed |= set(block.targets)
            if block.end and block.end[-1] not in (*range(0x99, 0xa7), 0xc6, 0xc7):
                needed.add(number + 1)
        places = {starts[n]: blocks[n].caught and self.made.cls(blocks[n].caught) for n in needed if n < len(blocks)}
        return 6, self.first_local + 4, code, table, frames_at(places)

    def aims(self, code, block, offsets):
        """writes the offsets of a branch or switch"""
        at = block.at
        if not offsets:
            return
        if code[at] in (0xaa, 0xab) and len(block.end) > 1:
            place, count = (at // 4 + 1) * 4, len(offsets) - 1
            if code[at] == 0xaa:
                low = self.chance.randrange(-3, 3)
                struct.pack_into('>iii%di' % count, code, place, offsets[0], low, low + count - 1, *offsets[1:])
            else:
                keys = sorted(self.chance.sample(range(-99, 99), count))
                pairs = [each for pair in zip(keys, offsets[1:]) for each in pair]
                struct.pack_into('>ii%di' % (2 * count), code, place, offsets[0], count, *pairs)
        else:
            struct.pack_into('>i' if code[at] == 0xc8 else '>h', code, at + 1, offsets[0])

    def table(self, code, blocks, starts):
        """exception entries, and the blocks that they name"""
        chance, entries = self.chance, []
        places = [at for at, _, _ in instructions(code)] + [len(code)]
        for number, block in enumerate(blocks):
            for _ in range(chance.choice([1, 1, 1, 2, 3]) if block.caught else 0):
                start, end = sorted(chance.sample(range(len(places)), 2))
                if self.loops:
                    end = max(1, min(end, next(n for n, at in enumerate(places) if at >= starts[number])))
                    start = min(start, end - 1)
                if chance.random() < 0.3:
                    start = 0
                if chance.random() < 0.3 and (not self.loops or end == places.index(starts[number])):  # the handler is within its own range
                    start, end = min(start, places.index(starts[number])), max(end, places.index(starts[number]) + 1)
                is_any = block.caught == THROWABLE and chance.random() < 0.5
                entries.append((places[start], places[end], starts[number], 0 if is_any else self.made.cls(block.caught)))
        chance.shuffle(entries)
        return entries, {starts.index(entry[2]) for entry in entries}


def instructions(code):
    import flow
    return flow.instructions(code)


class Signature:
    """a name and descriptor with the classes that declare it, from the one where it is looked up on; a method calls those of later levels"""

    def __init__(self, level, kind, result):
        self.level, self.kind, self.name = level, kind, '%s%d' % (kind[0], level)
        self.descriptor = '(II[I)' + ('I' if result else 'V')
        self.homes = []


class Maker:
    """makes a program: class Main with static methods; A, and B, C, D and q/E below it; the interfaces I and J, J below I"""

    def __init__(self, seed, wanted):
        self.chance = random.Random(seed)
        self.wanted, self.major = wanted, self.chance.choice([50, 51, 52])
        self.classes = {}
        self.ring = self.chance.choice([0, 0, 1, 2, 3])

    def made(self):
        """the name of the main class, and the files"""
        chance = self.chance
        self.add('Main')
        self.add('A', flags=0x21 | (ABSTRACT if chance.random() < 0.4 else 0))
        self.add('I', flags=INTERFACE)
        self.add('J', interfaces=['I'], flags=INTERFACE)
        self.add('B', 'A', ['I'] if chance.random() < 0.5 else [], flags=0x20 | (ABSTRACT if chance.random() < 0.2 else 0) | PUBLIC)
        self.add('C', chance.choice('AB'), ['J'] if chance.random() < 0.5 else [])
        self.add('D', chance.choice('BC'))
        self.add('q/E', chance.choice('AC'), flags=0x21)
        self.classes['Main'].field(PUBLIC | STATIC, 's', 'I')
        self.classes['A'].field(PUBLIC, 'k', 'I')
        self.signatures = [Signature(n, chance.choice(['static', 'static', 'virtual', 'virtual', 'interface']), chance.random() < 0.4) for n in range(6)]
        self.signatures[0].kind, self.signatures[0].name = 'static', 's0'
        self.place()
        self.write()
        files = [each.data() for each in self.classes.values()]
        return files

    def add(self, name, above=OBJECT, interfaces=(), flags=0x21):
        self.classes[name] = ClassFile(name, above, interfaces, flags, self.major)
        self.classes[name].above_name, self.classes[name].interface_names = above, list(interfaces)

    # ---- which class declares what

    def above(self, name):
        """the class and its superclasses, from it on"""
        found = []
        while name in self.classes:
            found.append(name)
            name = self.classes[name].above_name
        return found

    def implements(self, name):
        found = set()
        for each in self.above(name):
            for interface in self.classes[each].interface_names:
                found |= {interface, *self.classes[interface].interface_names}
        return found

    def place(self):
        """says which classes declare a method of each signature, with which flags, and whether with code"""
        chance, self.declared = self.chance, []
        for signature in self.signatures:
            if signature.kind == 'static':
                self.declare('Main', signature, PUBLIC | STATIC, True)
            elif signature.kind == 'virtual':
                self.place_virtual(signature, chance.choice([PUBLIC, PUBLIC, PROTECTED, 0]))
            else:
                self.place_interface(signature)

    def declare(self, name, signature, flags, has_code):
        self.declared.append((name, signature, flags, has_code))

    def is_abstract(self, name):
        return bool(self.classes[name].flags & ABSTRACT)

    def place_virtual(self, signature, flags):
        """a method of A, which some classes below override; one of another package doesn't override one that is private to the package"""
        without_code = self.is_abstract('A') and flags & (PUBLIC | PROTECTED) and self.chance.random() < 0.5
        self.declare('A', signature, flags | (ABSTRACT if without_code else 0), not without_code)
        for name in ('B', 'C', 'D', 'q/E'):
            needs = without_code and not self.is_abstract(name) and not any(self.has(each, signature) for each in self.above(name)[1:])
            if needs or self.chance.random() < 0.4:
                self.declare(name, signature, flags, True)

    def place_interface(self, signature):
        """a method of I, which the classes that implement I have"""
        self.declare('I', signature, PUBLIC | ABSTRACT, False)
        for name in ('A', 'B', 'C', 'D', 'q/E'):
            needs = 'I' in self.implements(name) and not self.is_abstract(name) and not any(self.has(each, signature) for each in self.above(name)[1:])
            if needs or self.chance.random() < 0.3:
                self.declare(name, signature, PUBLIC, True)

    def has(self, name, signature):
        return any(each[0] == name and each[1] is signature and each[3] for each in self.declared)

    # ---- the methods

    def calls_of(self, name, signature):
        """what a method of a signature may call: those of later levels, and in a program with a ring one of this level or an earlier one"""
        found = []
        for each in self.signatures:
            if each.level > signature.level:
                found += self.ways(name, each)
        if self.ring and signature.level == 1:
            found.append(('static', 'Main', 'r0', '(II[I)V'))
        if signature.kind == 'virtual':
            above = self.above(name)[1:]
            found += [('special', named, signature.name, signature.descriptor) for named in above if self.is_called(name, named, signature) and self.is_called(name, above[0], signature)]
        return found

    def is_called(self, name, named, signature):
        """whether the method that is found from a class on has code and is accessible to another class"""
        for each in self.above(named):
            for home, declared, flags, has_code in self.declared:
                if home == each and declared is signature:
                    return has_code and (name != 'q/E' or flags & (PUBLIC | PROTECTED))
        return False

    def ways(self, caller, signature):
        """calls of a signature, by each class that it can be named through"""
        if signature.kind == 'static':
            return [('static', 'Main', signature.name, signature.descriptor)]
        if signature.kind == 'interface':
            found = [('interface', each, signature.name, signature.descriptor) for each in 'IJ']
            return found + [('virtual', each, signature.name, signature.descriptor) for each in 'BC' if self.has(each, signature) or 'I' in self.implements(each)]
        if caller == 'q/E':
            flags = next(each[2] for each in self.declared if each[1] is signature)
            return [('virtual', 'A', signature.name, signature.descriptor)] if flags & PUBLIC else []
        return [('virtual', each, signature.name, signature.descriptor) for each in 'ABCD']

    def write_ring(self):
        """static methods each of which calls the next one, and the last one the first"""
        k = self.classes['Main']
        for n in range(self.ring):
            call = ('static', 'Main', 'r%d' % ((n + 1) % self.ring), '(II[I)V')
            coder = Coder(self.chance, k, 0, False, self.calls_of('Main', self.signatures[-2]))
            k.method(PUBLIC | STATIC, 'r%d' % n, '(II[I)V', coder.body(call))

    def write(self):
        """writes the methods that were declared"""
        made = self.ring
        for name, signature, flags, has_code in self.declared:
            k = self.classes[name]
            if not has_code:
                k.method(flags, signature.name, signature.descriptor)
                continue
            made += 1
            first_local = 0 if flags & STATIC else 1
            coder = Coder(self.chance, k, first_local, signature.descriptor[-1] == 'I', self.calls_of(name, signature))
            k.method(flags, signature.name, signature.descriptor, coder.body())
        self.write_ring()
        k = self.classes['Main']
        code = b'\x03\x04\x01\xb8' + struct.pack('>H', k.member(10, 'Main', 's0', self.signatures[0].descriptor))
        code += (b'\x57' if self.signatures[0].descriptor[-1] == 'I' else b'') + b'\xb1'
        k.method(PUBLIC | STATIC, 'main', MAIN, (3, 1, code, [], []))
        self.count = made
