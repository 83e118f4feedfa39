"""Programs by hand whose static methods are slots of a cyclic executive."""
import os
import struct
import sys

HERE = os.path.dirname(os.path.abspath(__file__))
sys.path[:0] = [HERE, os.path.join(HERE, '../profiles'), os.path.join(HERE, '../bounds'), os.path.join(HERE, '../graphs')]
from cyclic import EXECUTIVE, frames, main_code  # noqa: E402
from hand_profiles import ARITHMETIC, ICONST_0, ICONST_1, OVERFLOW, POP, caught_at, put  # noqa: E402
from made import MAIN, ClassFile  # noqa: E402
from programs import GOTO, RETURN, Hand, counting, refused  # noqa: E402, F401

PUBLIC, PRIVATE, STATIC, ABSTRACT, INTERFACE, NOT_PUBLIC = 1, 2, 8, 0x400, 0x601, 0x20
DIVIDE = ICONST_1 + ICONST_0 + b'\x6c' + POP


def small():
    """e returns"""
    return [Hand().static('e', '()V', RETURN).data()]


def working():
    """e returns, t calls it in each of five turns, w puts 7, l is longer than others"""
    k = Hand()
    k.static('e', '()V', RETURN)
    code, _, frames_of = counting(b'', k.call('e'))
    k.static('t', '()V', code, frames=frames_of)
    k.static('w', '()V', put(k, b'\x10\x07') + RETURN)
    k.static('l', '()V', bytes(300) + RETURN)
    return [k.data()]


def below():
    """B, below A, has no method of its own"""
    return [Hand().static('e', '()V', RETURN).data(), ClassFile('B', 'A').data()]


def packed():
    """a class of a package whose name and method have letters beyond ASCII"""
    return [Hand('plant/Lift').static('step', '()V', RETURN).static('größe', '()V', RETURN).data()]


def inner(k, calls, rounds):
    """code like that of an executive, whose calls stand at the same places"""
    indexes = [int.from_bytes(call[1:], 'big') for call in calls]
    found = frames(len(calls))
    return dict(code=main_code(indexes, rounds), frames=[found[2:6], found[6:]])


def nested():
    """n is the main of another program's executive, `p/Cyclic`, and i is an executive of A's own: each calls e and w in two rounds"""
    k = Hand()
    k.static('e', '()V', RETURN)
    k.static('w', '()V', put(k, b'\x10\x07') + RETURN)
    k.static('n', '()V', b'\x01' + k.call('main', MAIN, 'p/Cyclic') + RETURN)
    # the local variable 0 is set, so that the frames are those of a main, which has an argument
    k.static('i', '(I)V', **inner(k, [k.call('e'), k.call('w')], 2))
    k.static('j', '()V', ICONST_0 + k.call('i', '(I)V') + RETURN)
    other = Hand('p/Cyclic')
    other.static('main', MAIN, **inner(other, [other.call('e', owner='A'), other.call('w', owner='A')], 2))
    return [k.data(), other.data()]


def guarded(k, body):
    """code that does something the first time it runs"""
    k.field(9, 'n', 'I')
    n = struct.pack('>H', k.member(9, 'A', 'n', 'I'))
    # 0 getstatic, 3 ifne behind the body, 6 iconst_1, 7 putstatic, 10 the body
    return b'\xb2' + n + b'\x9a' + struct.pack('>h', 7 + len(body)) + ICONST_1 + b'\xb3' + n + body + RETURN, 10 + len(body)


def again():
    """r calls the executive's main the first time, whose slots are then slots of the run, too"""
    k = Hand()
    k.static('e', '()V', RETURN)
    code, end = guarded(k, b'\x01' + k.call('main', MAIN, EXECUTIVE))
    return [k.static('r', '()V', code, frames=[bytes([end])]).data()]


def before():
    """the initialiser of the class calls the executive's main, before boot does"""
    k = Hand()
    k.static('e', '()V', RETURN)
    return [k.static('<clinit>', '()V', b'\x01' + k.call('main', MAIN, EXECUTIVE) + RETURN).data()]


def raising():
    """x divides by zero, c catches what x throws, z calls x over another method"""
    k = Hand()
    k.static('e', '()V', RETURN)
    k.static('x', '()V', DIVIDE + RETURN)
    k.static('c', '()V', k.call('x') + RETURN + POP + RETURN, table=[(0, 3, 4, k.cls(ARITHMETIC))], frames=[caught_at(k, 4, ARITHMETIC)])
    k.static('y', '()V', k.call('x') + RETURN)
    k.static('z', '()V', k.call('y') + RETURN)
    return [k.data()]


def caught():
    """r calls the executive's main the first time, and catches what leaves it; x throws each time"""
    k = Hand()
    k.static('x', '()V', DIVIDE + RETURN)
    k.static('e', '()V', RETURN)
    k.static('m', '()V', b'\x01' + k.call('main', MAIN, EXECUTIVE) + RETURN)
    code, end = guarded(k, k.call('m'))
    # the handler stands behind the return
    frame = bytes([64 + 0]) + b'\x07' + struct.pack('>H', k.cls(ARITHMETIC))
    return [k.static('r', '()V', code + POP + RETURN, table=[(10, 13, end + 1, k.cls(ARITHMETIC))], frames=[bytes([end]), frame]).data()]


def deep():
    """o calls itself until the stack is full; s catches that"""
    k = Hand()
    k.static('e', '()V', RETURN)
    k.static('o', '()V', k.call('o') + RETURN)
    k.static('s', '()V', k.call('o') + RETURN + POP + RETURN, table=[(0, 3, 4, k.cls(OVERFLOW))], frames=[caught_at(k, 4, OVERFLOW)])
    return [k.data()]


def wide():
    """a has so many locals that no frame of it fits beside that of main in a small stack"""
    k = Hand()
    k.static('e', '()V', RETURN)
    return [k.static('a', '()V', RETURN, local=160).data()]


def never():
    """g never ends"""
    k = Hand()
    k.static('e', '()V', RETURN)
    return [k.static('g', '()V', GOTO + b'\0\0', frames=[b'\0']).data()]


def reading():
    """r puts what it reads"""
    k = Hand()
    return [k.static('r', '()V', put(k, k.call('read', '()I', 'jop/Io')) + RETURN).data()]


def towering():
    """a turns over b, which turns over c, which turns"""
    k = Hand()
    for name, body in (('c', b''), ('b', k.call('c')), ('a', k.call('b'))):
        code, _, frames_of = counting(b'', body)
        k.static(name, '()V', code, frames=frames_of)
    return [k.data()]


def inaccessible():
    """what no slot can name: an instance method, a private one, one of another package, an abstract one, one of a class that isn't public"""
    k = Hand()
    k.static('e', '()V', RETURN)
    k.method(PUBLIC, 'i', '()V', (1, 1, RETURN, [], []))
    k.method(PRIVATE | STATIC, 'h', '()V', (0, 0, RETURN, [], []))
    k.method(STATIC, 'k', '()V', (0, 0, RETURN, [], []))
    k.static('f', '(I)V', RETURN)
    other = Hand('p/B')
    other.method(STATIC, 'k', '()V', (0, 0, RETURN, [], []))
    hidden = ClassFile('p/C', flags=NOT_PUBLIC)
    hidden.method(PUBLIC | STATIC, 'e', '()V', (0, 0, RETURN, [], []))
    face = ClassFile('J', flags=INTERFACE)
    face.method(PUBLIC | ABSTRACT, 'e', '()V')
    above = ClassFile('T', flags=0x421)
    above.method(PUBLIC | ABSTRACT, 'e', '()V')
    return [each.data() for each in (k, other, hidden, face, above)]
