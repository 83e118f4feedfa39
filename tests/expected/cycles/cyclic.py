"""A cyclic executive, what `plan` says of its slots and what `cycle` tells of its run, worked out from the words of docs/formats.md.

The class of the executive is written here over ../class_writer.py, and one of it byte by byte. The program is linked by ../images, its methods are bounded by ../bounds, and the boundaries of its run are those of the plain simulator
(../plain.c), among which ../profiles finds the activations; nothing of `jop` is used.
"""
import os
import struct
import sys
from typing import NamedTuple

HERE = os.path.dirname(os.path.abspath(__file__))
sys.path[:0] = [os.path.join(HERE, part) for part in ('../profiles', '../bounds', '../graphs', '..', '../../harness')]
import class_writer as writer  # noqa: E402
from simulated import Machine, Simulated, activations, refused  # noqa: E402, F401
from study import Study, read_bounds  # noqa: E402

EXECUTIVE = 'Cyclic'
MAIN = 'Cyclic.main([Ljava/lang/String;)V'
MOST_SLOTS, MOST_LENGTH = 64, 2**64 - 1
# The index of the first slot's method in the pool of the executive, behind the class, its superclass, and main's name, descriptor and code.
FIRST_METHOD = 8


class Slot(NamedTuple):
    """the method of a slot, as `A.e()V`, and how many cycles a call of it may take"""

    name: str
    length: int

    def parts(self):
        """the class and the method"""
        owner, _, method = self.name.removesuffix('()V').partition('.')
        return owner, method

    def line(self):
        return 'slot %s %d' % self


def table_of(slots):
    return ''.join(slot.line() + '\n' for slot in slots)


# ---- the class (JVM Specification SE 8, 4)

def main_code(indexes, rounds):
    """iconst_0, istore_1; at 2 iload_1, sipush R, if_icmpge to the return; an invokestatic a slot; iinc 1 1, goto 2, return"""
    n = len(indexes)
    front = bytes.fromhex('033c1b11') + struct.pack('>H', rounds) + b'\xa2' + struct.pack('>h', 9 + 3 * n)
    calls = b''.join(b'\xb8' + struct.pack('>H', index) for index in indexes)
    return front + calls + bytes.fromhex('840101a7') + struct.pack('>h', -(10 + 3 * n)) + b'\xb1'


def frames(n):
    """at 2 the int of local variable 1 is appended; at the return, 13 + 3n places behind it, the locals are the same"""
    delta = 12 + 3 * n
    same = bytes([delta]) if delta < 64 else b'\xfb' + struct.pack('>H', delta)
    return struct.pack('>H', 2) + bytes.fromhex('fc000201') + same


def begun():
    """the pool, in which each entry stands in front of those that it names, with what is asked for before the slots"""
    pool = writer.Pool(front=True)
    classes = pool.cls(EXECUTIVE), pool.cls('java/lang/Object')
    return pool, classes, [pool.utf8(text) for text in ('main', '([Ljava/lang/String;)V', 'Code')]


def indexes_in(pool, slots):
    return [pool.member(10, *slot.parts(), '()V') for slot in slots]


def executive(slots, rounds):
    """the class file of the executive: `Cyclic`, public, of version 50, with its main"""
    pool, classes, (name, descriptor, code_name) = begun()
    code = main_code(indexes_in(pool, slots), rounds)
    body = writer.code(2, 2, code, others=[writer.attribute(pool.utf8('StackMapTable'), frames(len(slots)))])
    main = writer.member(0x0009, name, descriptor, [writer.attribute(code_name, body)])
    return writer.class_file(pool.pool_bytes(), 0x0021, *classes, methods=[main], version=(0, 50))


def method_index(slots, number):
    """the index of the method of a slot in the pool of the executive"""
    return indexes_in(begun()[0], slots)[number]


# The class of one slot, A.e()V, and three rounds, written out by hand.
ONE = bytes.fromhex(
    'cafebabe 0000 0032 000f'
    '07 0002' '01 0006 4379636c6963'                                       # 1 the class Cyclic, 2 its name
    '07 0004' '01 0010 6a6176612f6c616e672f4f626a656374'                   # 3 java/lang/Object, 4 its name
    '01 0004 6d61696e' '01 0016 285b4c6a6176612f6c616e672f537472696e673b2956' '01 0004 436f6465'  # 5 main, 6 its descriptor, 7 Code
    '0a 0009 000b' '07 000a' '01 0001 41' '0c 000c 000d' '01 0001 65' '01 0003 282956'  # 8 A.e()V, 9 the class A, 10 A, 11 its name and type, 12 e, 13 ()V
    '01 000d 537461636b4d61705461626c65'                                   # 14 StackMapTable
    '0021 0001 0003 0000 0000 0001'
    '0009 0005 0006 0001 0007 0000002c'
    '0002 0002 00000013 03 3c 1b 11 0003 a2 000c b8 0008 84 01 01 a7 fff3 b1'
    '0000 0001 000e 00000007 0002 fc 0002 01 0f'
    '0000')
assert executive([Slot('A.e()V', 100000)], 3) == ONE


# ---- the table

def read_table(text):
    """the slots of a text, or why it gives none; names are those of the rows, so any form of JVM 4.2 is not tried here"""
    lines = text.split('\n')
    slots = []
    for number, line in enumerate(lines[:-1] if lines[-1] == '' else lines, 1):
        if line == '' or line.startswith('#'):
            continue
        words = line.split(' ')
        if len(words) != 3 or words[0] != 'slot' or not is_name(words[1]) or not is_length(words[2]):
            return 'bad table line=%d' % number
        slots.append(Slot(words[1], int(words[2])))
    return slots if 1 <= len(slots) <= MOST_SLOTS else 'slots %d' % len(slots)


def is_name(word):
    """Class.name()V, where the first dot ends the class's name (4.2.1, 4.2.2)"""
    owner, dot, method = word.partition('.')
    if not dot or not method.endswith('()V'):
        return False
    method = method.removesuffix('()V')
    is_method = method in ('<init>', '<clinit>') or method != '' and not any(each in method for each in '.;[/<>')
    return is_method and all(part != '' and not any(each in part for each in '.;[') for part in owner.split('/'))


def is_length(word):
    return word.isascii() and word.isdigit() and word[0] != '0' and int(word) <= MOST_LENGTH


# ---- what is answered

class Cyclic:
    """class files with the executive of a table behind them"""

    def __init__(self, plain, files, slots, rounds):
        self.slots, self.rounds = slots, rounds
        self.known = Simulated(plain, EXECUTIVE, [*files, executive(slots, rounds)])
        self.program = self.known.program

    def method(self, number):
        """the number of the method of a slot"""
        main = self.program.names.index(MAIN)
        return self.program.called[main][9 + 3 * number][0]

    def planned(self, timing, text):
        """the status, the line and the bytes of `plan`"""
        too_long = Study(self.program, timing, {}).too_long()
        if too_long is not None:
            return 2, 'method too long %s blocks=%d limit=%d' % (self.program.names[too_long[0]], too_long[1], timing.blocks), b''
        bounds = read_bounds(text)
        if isinstance(bounds, str):
            return 2, bounds, b''
        study, found = Study(self.program, timing, bounds), []
        for number, slot in enumerate(self.slots):
            cause = study.cause_of(self.method(number))
            if cause is not None:
                return 2, 'plan: slot %d %s' % (number, cause), b''
            bound = study.printed(self.method(number))
            if bound is None or bound > slot.length:
                return 2, 'plan: late %d bound=%s length=%d' % (number, 'never' if bound is None else bound, slot.length), b''
            found.append('slot %d %s bound=%d length=%d\n' % (number, slot.name, bound, slot.length))
        return 0, '', ''.join(found).encode()

    def uses(self, heres):
        """the number of the slot and the cycles of each activation that began at the executive's call of a slot, and ended"""
        places = {9 + 3 * number: number for number in range(len(self.slots))}
        return [(places[begun.place], ended.clock - begun.clock) for begun, _, ended in activations(heres) if begun.method == MAIN and begun.place in places]

    def cycled(self, machine, given=b'', fails=None):
        """the status, the line and the bytes of `cycle`"""
        why = refused(self.known, machine, b'')
        if why is not None:
            return 2, why, b''
        run = self.known.run(given, machine, fails)
        uses = self.uses(run.heres)
        late = sum(use > self.slots[number].length for number, use in uses)
        idle = sum(self.slots[number].length - use for number, use in uses if use <= self.slots[number].length)
        counts = 'slots=%d late=%d idle=%d' % (len(uses), late, idle)
        front, found, back = run.line.partition(' cycles=')
        line = '%s %s cycles=%s' % (front, counts, back.split(' ')[0]) if found else run.line
        return run.status, line, run.put
