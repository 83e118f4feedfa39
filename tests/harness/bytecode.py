"""Class files of which `main` has a given code (JVM Specification SE 8, 4 and 6), with the frames that its branches need."""
import struct

WRITE, RETURN, LDC_W, LDC2_W, NULL = 0xb8, 0xb1, 0x13, 0x14, 0x01
WIDE, IINC, TABLE, LOOKUP, WIDE_JUMP = 0xc4, 0x84, 0xaa, 0xab, 0xc8
# What the rows write for a call of jop.Io.write.
PUT = 0xff
LOCALS, STACK = 8, 32
# The length of each opcode of the rows that has operands.
LENGTHS = {0x10: 2, 0x12: 2, 0xbc: 2, WIDE_JUMP: 5}
LENGTHS.update({op: 2 for op in [*range(0x15, 0x1a), *range(0x36, 0x3b)]})
LENGTHS.update({op: 3 for op in [0x11, LDC_W, LDC2_W, IINC, *range(0x99, 0xa8), *range(0xb2, 0xb9), 0xc6, 0xc7]})
CONDITIONS = {op: 1 for op in [*range(0x99, 0x9f), 0xc6, 0xc7]}
CONDITIONS.update({op: 2 for op in range(0x9f, 0xa7)})
INT_TYPE, NULL_TYPE, OBJECT_TYPE = 1, 5, 7


class Pool:
    """the entries of a constant pool"""

    def __init__(self):
        self.entries, self.places, self.next = [], {}, 1

    def put(self, data, places=1):
        """the index of an entry, which is added once"""
        if data not in self.places:
            self.places[data] = self.next
            self.entries.append(data)
            self.next += places
        return self.places[data]

    def utf8(self, text):
        return self.put(struct.pack('>BH', 1, len(text)) + text.encode())

    def class_of(self, name):
        return self.put(struct.pack('>BH', 7, self.utf8(name)))

    def string(self, text):
        return self.put(struct.pack('>BH', 8, self.utf8(text)))

    def integer(self, number):
        return self.put(struct.pack('>Bi', 3, number))

    def long(self, number):
        return self.put(struct.pack('>Bq', 5, number), 2)

    def method(self, owner, name, descriptor):
        both = self.put(struct.pack('>BHH', 12, self.utf8(name), self.utf8(descriptor)))
        return self.put(struct.pack('>BHH', 10, self.class_of(owner), both))

    def is_string(self, index):
        return any(place == index and data[0] == 8 for data, place in self.places.items())

    def data(self):
        return struct.pack('>H', self.next) + b''.join(self.entries)


class Assembler:
    """makes class A of the parts of a row"""

    def __init__(self):
        self.pool = Pool()

    def assembled(self, parts):
        """the class file whose main does what the parts say, and returns"""
        code = bytearray()
        for number in range(LOCALS):
            code += bytes([0x03, 0x36, number])
        for part in parts:
            code += self.part(part)
        code.append(RETURN)
        instructions = moved(decoded(bytes(code)), self.pool)
        return self.class_file(instructions)

    def part(self, part):
        """the bytes of a part: a number, a reference, what puts an int or a long out, or code"""
        if part == 'int':
            return b''.join(bytes([0x59, 0x10, shift, 0x7c, PUT]) for shift in (24, 16, 8)) + bytes([PUT])
        if part == 'long':
            return bytes([0x5c, 0x10, 32, 0x7d, 0x88]) + self.part('int') + bytes([0x88]) + self.part('int')
        kind, number = part[0], part[1:]
        if kind == '#':
            return struct.pack('>BH', LDC_W, self.pool.integer(int(number)))
        if kind == '@':
            return struct.pack('>BH', LDC2_W, self.pool.long(int(number)))
        if kind == '$':
            return bytes([NULL]) if number == '0' else struct.pack('>BH', LDC_W, self.pool.string(number))
        return bytes.fromhex(part)

    def class_file(self, instructions):
        """the class file with this main"""
        pool = self.pool
        this, above = pool.class_of('A'), pool.class_of('java/lang/Object')
        code = b''.join(each.data for each in instructions)
        frames = frames_of(instructions, pool)
        body = struct.pack('>HHI', STACK, LOCALS, len(code)) + code + struct.pack('>H', 0)
        body += map_of(frames, pool)
        method = struct.pack('>HHHH', 9, pool.utf8('main'), pool.utf8('([Ljava/lang/String;)V'), 1)
        method += struct.pack('>HI', pool.utf8('Code'), len(body)) + body
        front = struct.pack('>IHH', 0xCAFEBABE, 0, 52) + pool.data()
        return front + struct.pack('>HHHHHH', 0x21, this, above, 0, 0, 1) + method + b'\0\0'


class Instruction:
    """an instruction: its first place, its bytes, where it may branch to, and whether the next one may follow"""

    def __init__(self, place, data, targets=(), goes_on=True):
        self.place, self.data, self.targets, self.goes_on = place, data, list(targets), goes_on


def decoded(code):
    """the instructions of a code"""
    instructions, place = [], 0
    while place < len(code):
        instruction = decoded_at(code, place)
        instructions.append(instruction)
        place += len(instruction.data)
    return instructions


def decoded_at(code, place):
    """the instruction at a place"""
    op = code[place]
    if op in (TABLE, LOOKUP):
        return switch_at(code, place, op)
    length = LENGTHS.get(op, 1)
    if op == WIDE:
        length = 6 if code[place + 1] == IINC else 4
    data = code[place:place + length]
    if op in CONDITIONS or op == 0xa7:
        return Instruction(place, data, [place + struct.unpack('>h', data[1:])[0]], op != 0xa7)
    if op == WIDE_JUMP:
        return Instruction(place, data, [place + struct.unpack('>i', data[1:])[0]], False)
    return Instruction(place, data, goes_on=op != RETURN)


def switch_at(code, place, op):
    """a switch: its data are the numbers between which its offsets stand, its targets the default's and each case's"""
    at = place + 4 - place % 4
    offset, first, second = struct.unpack_from('>iii', code, at)
    count = second - first + 1 if op == TABLE else first
    if op == TABLE:
        offsets = struct.unpack_from('>%di' % count, code, at + 12)
        end = at + 12 + 4 * count
    else:
        offsets = struct.unpack_from('>%di' % (2 * count), code, at + 8)[1::2]
        end = at + 8 + 8 * count
    return Instruction(place, code[place:end], [place + each for each in (offset, *offsets)], False)


def moved(instructions, pool):
    """the same with calls of jop.Io.write, and each target where it then is"""
    call = struct.pack('>BH', WRITE, pool.method('jop/Io', 'write', '(I)V'))
    places, place = {}, 0
    for each in instructions:
        places[each.place] = place
        if each.data[0] == PUT:
            each.data = call
        elif each.data[0] in (TABLE, LOOKUP):
            each.data = resized(each, place)
        place += len(each.data)
    for each in instructions:
        each.place = places[each.place]
        each.targets = [places[target] for target in each.targets]
        each.data = with_targets(each)
    return instructions


def resized(switch, place):
    """the bytes of a switch with the padding of its new place"""
    return switch.data[:1] + bytes(3 - place % 4) + switch.data[4 - switch.place % 4:]


def with_targets(each):
    """the bytes of an instruction with the offsets to its targets"""
    op, offsets = each.data[0], [target - each.place for target in each.targets]
    if op in CONDITIONS or op == 0xa7:
        return struct.pack('>Bh', op, *offsets)
    if op == WIDE_JUMP:
        return struct.pack('>Bi', op, *offsets)
    if op not in (TABLE, LOOKUP):
        return each.data
    at = 4 - each.place % 4
    data = bytearray(each.data)
    struct.pack_into('>i', data, at, offsets[0])
    step, first = (4, at + 12) if op == TABLE else (8, at + 12)
    for number, offset in enumerate(offsets[1:]):
        struct.pack_into('>i', data, first + step * number, offset)
    return bytes(data)


def frames_of(instructions, pool):
    """the operands of each place that needs a frame: a target, and what stands behind an instruction that nothing follows"""
    following = {each.place: after.place for each, after in zip(instructions, instructions[1:])}
    needed = {target for each in instructions for target in each.targets}
    needed |= {following[each.place] for each in instructions if not each.goes_on and each.place in following}
    if not needed:
        return {}
    stacks, by_place = {}, {each.place: each for each in instructions}
    flow(by_place, following, 0, [], stacks, pool)
    for place in sorted(needed):
        flow(by_place, following, place, [], stacks, pool)
    return {place: stacks[place] for place in needed}


def flow(by_place, following, start, stack, stacks, pool):
    """notes the operands of each place that is reached from a place with these operands"""
    waiting = [(start, stack)]
    while waiting:
        place, stack = waiting.pop()
        if place in stacks:
            continue
        stacks[place] = stack
        each = by_place[place]
        behind = after(each, stack, pool)
        waiting += [(target, behind) for target in each.targets]
        if each.goes_on:
            waiting.append((following[place], behind))


def after(each, stack, pool):
    """the operands behind an instruction of a code with branches"""
    op = each.data[0]
    if op in CONDITIONS:
        return stack[:len(stack) - CONDITIONS[op]]
    if op in (TABLE, LOOKUP, WRITE, 0x36):
        return stack[:-1]
    if op in (0x00, 0xa7, WIDE_JUMP, RETURN, IINC):
        return stack
    if op == NULL:
        return [*stack, bytes([NULL_TYPE])]
    if op == LDC_W and pool.is_string(struct.unpack('>H', each.data[1:])[0]):
        return [*stack, struct.pack('>BH', OBJECT_TYPE, pool.class_of('java/lang/String'))]
    if op in (LDC_W, 0x10) or 0x02 <= op <= 0x08 or 0x1a <= op <= 0x1d:
        return [*stack, bytes([INT_TYPE])]
    raise ValueError('a code with branches has opcode %02x' % op)


def map_of(frames, pool):
    """the attributes of a code: a StackMapTable with these frames, or none"""
    if not frames:
        return struct.pack('>H', 0)
    data, last = struct.pack('>H', len(frames)), -1
    for place in sorted(frames):
        stack = frames[place]
        data += struct.pack('>BHH', 255, place - last - 1, LOCALS) + bytes([INT_TYPE]) * LOCALS
        data += struct.pack('>H', len(stack)) + b''.join(stack)
        last = place
    return struct.pack('>HHI', 1, pool.utf8('StackMapTable'), len(data)) + data
