"""Programs by hand whose profiles are worked out: how activations end, and which of them do."""
import os
import struct
import sys

HERE = os.path.dirname(os.path.abspath(__file__))
sys.path[:0] = [os.path.join(HERE, '../bounds'), os.path.join(HERE, '../graphs')]
from made import MAIN, OBJECT, ClassFile  # noqa: E402
from programs import RETURN, Hand, counting  # noqa: E402

PUBLIC, ABSTRACT, ABSTRACT_CLASS, INTERFACE = 1, 0x401, 0x421, 0x601
INT_TO_INT, TO_INT = '(I)I', '()I'
ARITHMETIC, OVERFLOW = 'java/lang/ArithmeticException', 'java/lang/StackOverflowError'
POP, ICONST_0, ICONST_1, ILOAD_0, IDIV, IRETURN = b'\x57', b'\x03', b'\x04', b'\x1a', b'\x6c', b'\xac'
DIVIDE = ILOAD_0 + ICONST_0 + IDIV + IRETURN


def caught_at(k, delta, name):
    """a frame with the locals of the one before it, and an object of a class"""
    return bytes([64 + delta]) + b'\x07' + struct.pack('>H', k.cls(name))


def put(k, push):
    """puts a byte"""
    return push + k.call('write', '(I)V', 'jop/Io')


def dividing():
    """main calls f, which calls g, which divides by zero: an exception leaves both, and main catches it and calls f no more"""
    k = Hand()
    k.static('g', INT_TO_INT, DIVIDE)
    k.static('f', '()V', ICONST_1 + k.call('g', INT_TO_INT) + POP + RETURN)
    code = k.call('f') + RETURN + POP + put(k, b'\x10\x07') + RETURN
    return [k.static('main', MAIN, code, table=[(0, 3, 4, k.cls(ARITHMETIC))], frames=[caught_at(k, 4, ARITHMETIC)]).data()]


def uncaught():
    """e returns, and g divides by zero within f and main, which nothing catches"""
    k = Hand()
    k.static('e', '()V', RETURN)
    k.static('g', INT_TO_INT, DIVIDE)
    k.static('f', '()V', k.call('e') + ICONST_1 + k.call('g', INT_TO_INT) + POP + RETURN)
    return [k.main(k.call('e') + k.call('f') + RETURN).data()]


def recursion():
    """r calls itself five times deep, and a method that doesn't in each activation; b calls c, which calls b once more"""
    k = Hand()
    k.static('e', '()V', RETURN)
    # 0 invokestatic e, 3 iload_0, 4 ifle 13, 7 iload_0, 8 iconst_1, 9 isub, 10 invokestatic r, 13 return
    k.static('r', '(I)V', k.call('e') + bytes.fromhex('1a9e00091a0464') + k.call('r', '(I)V') + RETURN, frames=[b'\x0d'])
    # 0 iload_0, 1 ifle 8, 4 iconst_0, 5 invokestatic c, 8 return
    k.static('b', '(I)V', bytes.fromhex('1a9e000703') + k.call('c', '(I)V') + RETURN, frames=[b'\x08'])
    k.static('c', '(I)V', ILOAD_0 + k.call('b', '(I)V') + RETURN)
    return [k.main(b'\x08' + k.call('r', '(I)V') + ICONST_1 + k.call('b', '(I)V') + k.call('e') + RETURN).data()]


def again():
    """the initialiser of the class calls main, which boot calls, too; so a frame of main lies once on that of boot and once on that of the initialiser"""
    k = Hand()
    k.static('e', '()V', RETURN)
    k.static('<clinit>', '()V', b'\x01' + k.call('main', MAIN) + RETURN)
    return [k.main(k.call('e') + RETURN).data()]


def within():
    """main calls itself once more, over a method, where a field says so"""
    k = Hand()
    k.field(10, 'n', 'I')
    n = struct.pack('>H', k.member(9, 'A', 'n', 'I'))
    # 0 getstatic, 3 ifne 13, 6 iconst_1, 7 putstatic, 10 invokestatic, 13 return
    k.static('over', '()V', b'\x01' + k.call('main', MAIN) + RETURN)
    return [k.static('main', MAIN, b'\xb2' + n + bytes.fromhex('9a000a04b3') + n + k.call('over') + RETURN, frames=[b'\x0d']).data()]


def selected():
    """calls of an abstract method and of a method of an interface, each on an object of either class"""
    above = ClassFile('B', flags=ABSTRACT_CLASS)
    constructor(above, OBJECT)
    above.method(ABSTRACT, 'f', TO_INT)
    face = ClassFile('I', flags=INTERFACE)
    face.method(ABSTRACT, 'f', TO_INT)
    classes = []
    for name, code in (('C', ICONST_1 + IRETURN), ('D', bytes.fromhex('0405603b1aac'))):
        k = ClassFile(name, 'B', ['I'])
        constructor(k, 'B')
        k.method(PUBLIC, 'f', TO_INT, (2, 2, code, [], []))
        classes.append(k)
    k = Hand()
    k.static('both', '(LB;)V', b'\x2a\xb6' + struct.pack('>H', k.member(10, 'B', 'f', TO_INT)) + POP
             + b'\x2a\xc0' + struct.pack('>H', k.cls('I')) + b'\xb9' + struct.pack('>H', k.member(11, 'I', 'f', TO_INT)) + b'\x01\0' + POP + RETURN)
    k.main(b''.join(made(k, name) + k.call('both', '(LB;)V') for name in 'CDC') + RETURN)
    return [each.data() for each in (k, above, face, *classes)]


def constructor(k, above):
    k.method(PUBLIC, '<init>', '()V', (1, 1, b'\x2a\xb7' + struct.pack('>H', k.member(10, above, '<init>', '()V')) + RETURN, [], []))


def made(k, name):
    """makes an object of a class"""
    return b'\xbb' + struct.pack('>H', k.cls(name)) + b'\x59\xb7' + struct.pack('>H', k.member(10, name, '<init>', '()V'))


def reading():
    """reads twice, each time within a method that reads, and puts what it read"""
    k = Hand()
    k.static('get', TO_INT, k.call('read', TO_INT, 'jop/Io') + IRETURN)
    return [k.main(put(k, k.call('get', TO_INT)) + put(k, k.call('get', TO_INT)) + RETURN).data()]


def turning():
    """a loop that goes round five times, twice, with a call in each turn, and then one that never ends"""
    k = Hand()
    k.static('e', '()V', RETURN)
    code, _, frames = counting(b'', k.call('e'))
    k.static('t', '()V', code, frames=frames)
    k.static('w', '()V', b'\xa7\0\0', frames=[b'\0'])
    return [k.main(k.call('t') + k.call('t') + k.call('w') + RETURN).data()]


def overflowing():
    """calls itself until the stack is full, which main catches: each frame is left by the exception"""
    k = Hand()
    k.static('r', '()V', k.call('r') + RETURN)
    code = k.call('r') + RETURN + POP + put(k, ICONST_1) + RETURN
    return [k.static('main', MAIN, code, table=[(0, 3, 4, k.cls(OVERFLOW))], frames=[caught_at(k, 4, OVERFLOW)]).data()]


def named():
    """methods whose names can't be named in a text of bounds, but in a profile"""
    k = Hand()
    k.static('g g', '()V', RETURN)
    k.static('#g', '()V', k.call('g g') + RETURN)
    return [k.main(k.call('#g') + k.call('#g') + RETURN).data()]
