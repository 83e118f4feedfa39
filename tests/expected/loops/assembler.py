"""Methods from texts, for rows by hand: instructions between semicolons, `LABEL:` in front of one, branches to labels, `!` in front of a name for its wide form. All
locals are parameters, so those of each frame are the method's first ones; operands at a branch's target are ints, and a handler has what it catches."""
import os
import re
import struct
import sys

HERE = os.path.dirname(os.path.abspath(__file__))
sys.path[:0] = [os.path.join(HERE, '../graphs'), os.path.join(HERE, '../bounds')]
from programs import Hand  # noqa: E402, F401

NAMES = """nop=0 aconst_null=1 iconst_m1=2 iconst_0=3 iconst_1=4 iconst_2=5 iconst_3=6 iconst_4=7 iconst_5=8 lconst_0=9 lconst_1=10 bipush=16 sipush=17 ldc=18 ldc_w=19
    iload=21 lload=22 aload=25 aload_0=42 aload_1=43 aload_2=44 aload_3=45 iload_0=26 iload_1=27 iload_2=28 iload_3=29 istore=54 lstore=55 astore=58 istore_0=59 istore_1=60 istore_2=61 istore_3=62 lstore_0=63 lstore_1=64
    lstore_2=65 iastore=79 pop=87 dup=89 iadd=96 isub=100 imul=104 idiv=108 irem=112 ineg=116 ishl=120 ishr=122 iushr=124 iand=126 ior=128 ixor=130 iinc=132 ifeq=153 ifne=154 iflt=155 ifge=156 ifgt=157 ifle=158 if_icmpeq=159 if_icmpne=160
    if_icmplt=161 if_icmpge=162 if_icmpgt=163 if_icmple=164 goto=167 ireturn=172 return=177 getstatic=178 putstatic=179 invokestatic=184 new=187 newarray=188
    anewarray=189 athrow=191 goto_w=200 arraylength=190""".split()
OPS = {name: int(op) for name, op in (each.split('=') for each in NAMES)}
BRANCHES = {*range(153, 165), 167, 200}
POOLED = {178, 179, 184, 187, 189}
SWITCH = 'switch'
ENDS = ('goto', 'goto_w', 'return', 'ireturn', 'athrow', SWITCH)
# How many words an instruction puts on the stack, but for those that put one, and invokestatic, which takes ints and gives nothing.
EFFECTS = {
    **dict.fromkeys(('nop', 'iinc', 'goto', 'goto_w', 'return', 'ineg', 'newarray', 'anewarray', 'arraylength'), 0),
    **dict.fromkeys(('istore', 'istore_0', 'istore_1', 'istore_2', 'istore_3', 'astore', 'pop', 'iadd', 'isub', 'imul', 'idiv', 'irem', 'ishl', 'ishr', 'iushr', 'iand', 'ior', 'ixor',
                      'ireturn', 'athrow', 'putstatic', SWITCH), -1),
    **dict.fromkeys(('ifeq', 'ifne', 'iflt', 'ifge', 'ifgt', 'ifle'), -1), **dict.fromkeys(('lstore', 'lstore_0', 'lstore_1', 'lstore_2'), -2),
    'iastore': -3, **dict.fromkeys(('if_icmpeq', 'if_icmpne', 'if_icmplt', 'if_icmpge', 'if_icmpgt', 'if_icmple'), -2), **dict.fromkeys(('lconst_0', 'lconst_1', 'lload'), 2),
}
INT_TYPE, OBJECT_TYPE = b'\x01', b'\x07'
TYPES = {'I': INT_TYPE, 'J': b'\x04'}
PARAMETERS = re.compile(r'\[+.|.')


def parsed(text):
    """the labels in front of each instruction, and its words"""
    for piece in text.replace('\n', ';').split(';'):
        *labels, words = piece.strip().split(': ') if not piece.strip().endswith(':') else [piece.strip()[:-1], '']
        if words.strip():
            yield [each.strip() for each in labels], words.split()


class Method:
    """the code of a text; `entries` has the index of what a word names in the pool"""

    def __init__(self, text, entries, caught):
        self.entries, self.caught, self.places = entries, caught, {}
        self.found, at = [], 0
        for labels, words in parsed(text):
            self.places.update(dict.fromkeys(labels, at))
            self.found.append((at, words))
            at += self.size(at, words)
        self.end = at

    def size(self, at, words):
        name, *rest = words
        if name == SWITCH:
            return 1 + (-at - 1) % 4 + 12 + 4 * (len(rest) - 2)
        if name.startswith('!'):
            return 6 if name == '!iinc' else 4
        op = OPS[name]
        sizes = {16: 2, 17: 3, 18: 2, 19: 3, 132: 3, 188: 2, 200: 5}
        return sizes.get(op, 3 if op in BRANCHES or op in POOLED else 1 + len(rest))

    def bytes_of(self, at, words):
        name, *rest = words
        if name == SWITCH:
            # switch DEFAULT LOW LABEL..
            front = bytes([170]) + bytes((-at - 1) % 4)
            low, labels = int(rest[1]), rest[2:]
            return front + struct.pack('>iii', self.to(rest[0], at), low, low + len(labels) - 1) + b''.join(struct.pack('>i', self.to(each, at)) for each in labels)
        if name.startswith('!'):
            op = OPS[name[1:]]
            return struct.pack('>BBH', 196, op, int(rest[0])) + (struct.pack('>h', int(rest[1])) if op == 132 else b'')
        op = OPS[name]
        if op == 200:
            return struct.pack('>Bi', op, self.to(rest[0], at))
        if op in BRANCHES:
            return struct.pack('>Bh', op, self.to(rest[0], at))
        if op in POOLED or op == 19:
            return struct.pack('>BH', op, self.entries(rest))
        if op == 18:
            return struct.pack('>BB', op, self.entries(rest))
        if op == 17:
            return struct.pack('>Bh', op, int(rest[0]))
        if op == 132:
            return struct.pack('>BBb', op, int(rest[0]), int(rest[1]))
        return bytes([op]) + (struct.pack('>b', int(rest[0])) if op == 16 else bytes(map(int, rest)))

    def to(self, label, at):
        return self.places[label] - at

    def code(self):
        return b''.join(self.bytes_of(at, words) for at, words in self.found)

    def branched(self, words):
        """the places to which an instruction branches"""
        return [self.places[word] for word in words[1:] if word in self.places and (words[0] == SWITCH or OPS.get(words[0].lstrip('!')) in BRANCHES)]

    def stacks(self, handlers):
        """the words on the stack at each place, in code that isn't reached from its first instruction on; and the places that want a frame"""
        depth, framed = {0: 0}, set()
        for _, _, handler in handlers:
            depth[self.places[handler]] = 1
            framed.add(self.places[handler])
        for place, (at, words) in enumerate(self.found):
            depth.setdefault(at, 0)
            behind = depth[at] + (-words[-1].count('I') if words[0] == 'invokestatic' else EFFECTS.get(words[0].lstrip('!'), 1))
            for target in self.branched(words):
                depth.setdefault(target, behind)
                framed.add(target)
            if place + 1 < len(self.found):
                following = self.found[place + 1][0]
                if words[0] in ENDS:
                    framed.add(following)
                else:
                    depth.setdefault(following, behind)
        return depth, framed

    def frames(self, handlers, descriptor):
        """the frames: locals are those of the method's start, operands ints, but for what a handler catches"""
        depth, framed = self.stacks(handlers)
        if not framed:
            return []
        parameters = PARAMETERS.findall(descriptor[1:descriptor.index(')')])
        local = b''.join(TYPES.get(each) or OBJECT_TYPE + struct.pack('>H', self.entries(['class', each])) for each in parameters)
        caught, found, before = {self.places[handler] for _, _, handler in handlers}, [], -1
        for place in sorted(framed):
            stack = OBJECT_TYPE + struct.pack('>H', self.caught) if place in caught else INT_TYPE * depth[place]
            delta = struct.pack('>H', place - before - 1)
            found.append(b'\xff' + delta + struct.pack('>H', len(parameters)) + local + struct.pack('>H', 1 if place in caught else depth[place]) + stack)
            before = place
        return found


def add(hand, name, descriptor, text, handlers=(), local=8, stack=4):
    """adds a static method; handlers are labels of their start, their end (or none for that of the code) and what handles"""
    def entries(words):
        if words[0].lstrip('-').isdigit():
            return hand.int(int(words[0]))
        kind, *rest = words
        if kind == 'class':
            return hand.cls(rest[0])
        return hand.member({'field': 9, 'method': 10}[kind], *rest)
    method = Method(text, entries, hand.cls('java/lang/Throwable') if handlers else None)
    table = [(method.places[a], method.places[b] if b else method.end, method.places[c], 0) for a, b, c in handlers]
    hand.static(name, descriptor, method.code(), stack, local, table, method.frames(handlers, descriptor))
