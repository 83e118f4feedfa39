"""Class files by hand, with what their runs have to put out by the JVM Specification. The cycles are those of the plain simulator."""
import struct

OBJECT, INT = b'\x07', b'\x01'


def u2(n):
    return struct.pack('>H', n)


def same_locals_one(k, delta, name):
    """a frame with the locals of the one before it and an object of this class on the stack"""
    return bytes([64 + delta]) + OBJECT + u2(k.cls(name))


def write(k):
    return b'\xb8' + u2(k.member(10, 'jop/Io', 'write', '(I)V'))


def division(Made):
    """writes -2147483648 / -1 byte by byte, and divides 1 by 0"""
    k = Made('A')
    code = b'\x12' + bytes([k.int(-2147483648)]) + b'\x02\x6c\x3c'
    for shift in (24, 16, 8, 0):
        code += b'\x1b\x10' + bytes([shift]) + b'\x7c' + write(k)
    return k.main(code + b'\x04\x03\x6c\x57\xb1', local=2).bytes()


def handlers(Made):
    """divides 1 by 0 within three entries of one range: the first one that fits is taken"""
    k = Made('A')
    names = ['java/lang/ClassCastException', 'java/lang/ArithmeticException', 'java/lang/Throwable']
    code = b'\x04\x03\x6c\x57\xb1' + b''.join(b'\x57' + push + write(k) + b'\xb1' for push in (b'\x04', b'\x05', b'\x06'))
    table = [(0, 4, 5, k.cls(names[0])), (0, 4, 11, k.cls(names[1])), (0, 4, 17, 0)]
    frames = b''.join(same_locals_one(k, 5, name) for name in names)
    return k.main(code, table=table, frames=frames, count=3).bytes()


def across(Made):
    """calls f, which pushes 3 and 1 and calls g, which divides by 0; main catches that and writes 7"""
    k = Made('A')
    error = 'java/lang/ArithmeticException'
    code = b'\xb8' + u2(k.member(10, 'A', 'f', '()V')) + b'\xb1' + b'\x57\x10\x07' + write(k) + b'\xb1'
    k.main(code, table=[(0, 3, 4, k.cls(error))], frames=same_locals_one(k, 4, error), count=1)
    k.code(10, 'f', '()V', b'\x06\x04\xb8' + u2(k.member(10, 'A', 'g', '(I)I')) + b'\x60\x57\xb1', local=0)
    return k.code(10, 'g', '(I)I', b'\x1a\x03\x6c\xac').bytes()


# The steps of its run: the method, the place, what stands there or that an object is raised, the frames and the words of operands; or the byte that is written.
ACROSS = """\
jop/Boot.boot()V 0 iconst_0 frames=1 operands=0
jop/Boot.boot()V 1 anewarray frames=1 operands=1
jop/Boot.boot()V 4 invokestatic frames=1 operands=1
A.main([Ljava/lang/String;)V 0 invokestatic frames=2 operands=0
A.f()V 0 iconst_3 frames=3 operands=0
A.f()V 1 iconst_1 frames=3 operands=1
A.f()V 2 invokestatic frames=3 operands=2
A.g(I)I 0 iload_0 frames=4 operands=0
A.g(I)I 1 iconst_0 frames=4 operands=1
A.g(I)I 2 idiv frames=4 operands=2
A.g(I)I 2 raise frames=4 operands=0
A.f()V 2 raise frames=3 operands=0
A.main([Ljava/lang/String;)V 0 raise frames=2 operands=0
A.main([Ljava/lang/String;)V 4 pop frames=2 operands=1
A.main([Ljava/lang/String;)V 5 bipush frames=2 operands=0
A.main([Ljava/lang/String;)V 7 invokestatic frames=2 operands=1
jop/Io.write(I)V 0 iload_0 frames=3 operands=0
jop/Io.write(I)V 1 impdep2 frames=3 operands=1
write 07
jop/Io.write(I)V 2 return frames=3 operands=0
A.main([Ljava/lang/String;)V 10 return frames=2 operands=0
jop/Boot.boot()V 7 return frames=1 operands=0
"""


def depth(Made, stack):
    """counts the frames of 7 words that fit the stack behind those of boot, of 6 words, and of main, of 7 words and `stack` more"""
    k = Made('A')
    k.field(10, 'n', 'I')
    n, f = k.member(9, 'A', 'n', 'I'), k.member(10, 'A', 'f', '()V')
    k.code(10, 'f', '()V', b'\xb2' + u2(n) + b'\x04\x60\xb3' + u2(n) + b'\xb8' + u2(f) + b'\xb1', stack=2, local=0)
    code = b'\xb8' + u2(f) + b'\xb1' + b'\x57\xb2' + u2(n) + write(k) + b'\xb1'
    error = 'java/lang/StackOverflowError'
    return k.main(code, stack=stack, local=2, table=[(0, 3, 4, k.cls(error))], frames=same_locals_one(k, 4, error), count=1).bytes()


def objects(Made):
    """counts the objects of one word that fit the memory"""
    k = Made('A')
    code = b'\x03\x3c' + b'\xbb' + u2(k.cls('java/lang/Object')) + b'\x57\x84\x01\x01\xa7\xff\xf9' + b'\x57\x1b' + write(k) + b'\xb1'
    error = 'java/lang/OutOfMemoryError'
    frames = b'\xfc' + u2(2) + INT + same_locals_one(k, 9, error)
    return k.main(code, local=2, table=[(2, 6, 12, k.cls(error))], frames=frames, count=2).bytes()


def empty_switch(Made):
    return Made('A').main(b'\x03\xab' + bytes(5) + b'\x0b' + bytes(4) + b'\xb1', frames=b'\x0c', count=1).bytes()


def far_switch(Made):
    """a switch on 2147483647, which is its last key"""
    k = Made('A')
    code = b'\x12' + bytes([k.int(2147483647)]) + b'\xab\0' + struct.pack('>iiiiii', 26, 2, -2147483648, 27, 2147483647, 32) + b'\xb1'
    code += b'\x04' + write(k) + b'\xb1' + b'\x05' + write(k) + b'\xb1'
    return k.main(code, frames=b'\x1c\x00\x04', count=3).bytes()


def other_class(Made):
    """calls a method of an interface on an object of an array of it, whose class lacks it"""
    k = Made('A')
    k.field(10, 's', '[LI;')
    k.code(1, '<init>', '()V', b'\x2a\xb7' + u2(k.member(10, 'java/lang/Object', '<init>', '()V')) + b'\xb1')
    s, cls = k.member(9, 'A', 's', '[LI;'), k.cls('A')
    code = b'\x04\xbd' + u2(cls) + b'\x59\x03\xbb' + u2(cls) + b'\x59\xb7' + u2(k.member(10, 'A', '<init>', '()V')) + b'\x53\xb3' + u2(s)
    code += b'\xb2' + u2(s) + b'\x03\x32\xb9' + u2(k.member(11, 'I', 'f', '()V')) + b'\x01\0\xb1' + b'\x57\x10\x07' + write(k) + b'\xb1'
    error = 'java/lang/IncompatibleClassChangeError'
    return k.main(code, stack=5, table=[(22, 27, 28, k.cls(error))], frames=same_locals_one(k, 28, error), count=1).bytes()


def interface(ClassFile):
    k = ClassFile(0x601, 'I')
    k.method(0x401, 'f', '()V')
    return k.data()


def longs(Made):
    """makes an array of three longs"""
    return Made('A').main(b'\x06\xbc\x0b\x57\xb1').bytes()
