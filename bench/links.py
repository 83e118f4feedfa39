#!/usr/bin/env python3
"""links.py [SHAPE CLASSES METHODS | branches N | hostile NAME | costly NAME N]: how long class files take to be linked: read, resolved, verified, laid out and written.

SHAPE is how the classes stand to one another, each of so many methods: `groups`, ten deep; `chain`, each below the one before it; `interfaces`, every second
an interface that the next one implements; `long`, whose methods have 200 instructions. `branches` is a class whose main has N branches, each to a stack map
frame, at most 9,361. The names of `hostile` are those of hostile.py, those of `costly` those of costly.py. Without words, some of each are measured.
"""
import struct
import sys

from timing import folder, link

import costly  # noqa: E402
import hostile  # noqa: E402
from classfile import ClassFile  # noqa: E402

OBJECT, MAIN = 'java/lang/Object', 'p/Main'
# iconst_0, istore_1, iconst_1, istore_2; then 15 times: iload_1, iload_2, iadd, istore_1, aload_0, invokevirtual, iload_2, iconst_2, imul, iload_1,
# isub, istore_2, iinc 1 by 1
FIRST, SUM, PRODUCT = bytes.fromhex('033c043d'), bytes.fromhex('1b1c603c2a'), bytes.fromhex('1c05681b643d840101')
USUAL = [('groups', 1000, 20), ('groups', 1023, 64), ('chain', 1023, 64), ('interfaces', 1000, 1), ('long', 50, 20)]


def called(made, tag, owner, number):
    """the index of a method of an owner, by its number"""
    pair = made.entry(b'\x0c' + struct.pack('>HH', made.utf8('m%d' % number), made.utf8('()V')))
    return struct.pack('>H', made.entry(struct.pack('>BHH', tag, made.cls(owner), pair)))


def with_methods(made, shape, owner, methods):
    """adds methods, each of which calls the next one of the owner"""
    for number in range(methods):
        following = (number + 1) % methods
        if shape == 'interfaces':
            code = b'\x2a\xb9' + called(made, 11, owner, following) + b'\x01\x00\xb1'
        elif shape == 'long':
            code = FIRST + 15 * (SUM + b'\xb6' + called(made, 10, owner, following) + PRODUCT) + b'\xb1'
        else:
            code = b'\x2a\xb6' + called(made, 10, owner, following) + b'\xb1'
        made.method(1, 'm%d' % number, '()V', code, *((2, 3) if shape == 'long' else (1, 1)))
    return made


def class_of(shape, number, methods):
    """a class by its number, from 1 on"""
    name, before = 'p/C%d' % number, 'p/C%d' % (number - 1)
    if shape == 'interfaces' and number % 2 == 1:
        made = ClassFile(0x601, name)
        for method in range(methods):
            made.method(0x401, 'm%d' % method, '()V')
        return made.data()
    if shape == 'interfaces':
        return with_methods(ClassFile(0x21, name, OBJECT, [before]), shape, before, methods).data()
    is_first = number == 1 if shape == 'chain' else number % 10 == 1 or shape == 'long'
    return with_methods(ClassFile(0x21, name, OBJECT if is_first else before), shape, name, methods).data()


def main_class():
    made = ClassFile(0x21, MAIN)
    made.method(9, 'main', '([Ljava/lang/String;)V', b'\xb1', 1, 1)
    return made.data()


def branching(count):
    """a class whose main branches so many times, seven bytes apart: iload_1, ifeq to the next, nop, nop, nop"""
    made = ClassFile(0x21, 'Main')
    code = b'\x03\x3c' + count * b'\x1b\x99\x00\x06\x00\x00\x00' + b'\xb1'
    frames = b'\xfc\x00\x09\x01' + (count - 1) * b'\x06' if count else b''
    return made, code, frames


def branching_class(count):
    """the class file: each branch goes to the next one, where a frame stands"""
    made, code, frames = branching(count)
    maps = struct.pack('>H', count) + frames
    body = struct.pack('>HHI', 1, 2, len(code)) + code + struct.pack('>HHHI', 0, 1, made.utf8('StackMapTable'), len(maps)) + maps
    method = struct.pack('>HHHHHI', 9, made.utf8('main'), made.utf8('([Ljava/lang/String;)V'), 1, made.utf8('Code'), len(body)) + body
    made.methods.append(method)
    return made.data()


def tell(room, title, main, files, runs=3):
    """links files, and prints how long that took"""
    timed = link(room, main, files, runs)
    size = sum(len(data) for data in files)
    print('%s: files=%d bytes=%d seconds=%.3f per_megabyte=%.3f (%s)' % (title, len(files), size, timed.seconds, timed.seconds * 1e6 / size, timed.line[:100]))


def shape_files(shape, classes, methods):
    return [class_of(shape, number, methods) for number in range(1, classes + 1)] + [main_class()]


def main():
    words = sys.argv[1:]
    with folder() as room:
        if words[:1] == ['branches']:
            tell(room, ' '.join(words), 'Main', [branching_class(int(words[1]))])
        elif words[:1] == ['hostile']:
            tell(room, ' '.join(words), 'A', hostile.files_of(words[1]), 1)
        elif words[:1] == ['costly']:
            tell(room, ' '.join(words), MAIN, costly.files_of(words[1], int(words[2])), 1)
        elif words:
            tell(room, ' '.join(words), MAIN, shape_files(words[0], int(words[1]), int(words[2])))
        else:
            for shape, classes, methods in USUAL:
                tell(room, '%s %d %d' % (shape, classes, methods), MAIN, shape_files(shape, classes, methods))
            for count in (1000, 4000, 8571):
                tell(room, 'branches %d' % count, 'Main', [branching_class(count)])
            for name in hostile.MADE:
                tell(room, 'hostile ' + name, 'A', hostile.files_of(name), 1)
            for name in costly.MADE:
                tell(room, 'costly %s 500' % name, MAIN, costly.files_of(name, 500), 1)


if __name__ == '__main__':
    main()
