#!/usr/bin/env python3
"""flow.py [NAME..]: how long the table of a program, graphs of methods and orders of calls take, over the built crates/test_flow (or the program that the variable
TEST_FLOW names). Of each row the seconds of user time are printed: to read, resolve and verify the files; then for the table; then for what is printed.

classes      1,000 classes with 20,000 methods, ten deep, each of which calls the next one of its class; the orders
ring         1,000 methods in a ring; the orders
branches     a method of 65,535 bytes with 8,000 branches, each to the next one; its graph, loops and regions
loops        the same with 8,000 loops, one behind the other
same         65,535 exception entries over 65,535 bytes, of one range and one handler
nested       the same, each range within the one before it
each         the same, each range of one instruction
handlers     the same with 64 handlers by turns, over 1,000 instructions that may raise
overriding   1,023 classes that override one method, which is called 60,000 times
uncalled     a class of 20,000 methods that nothing calls, and 1,022 classes below it
"""
import os
import struct
import sys

from timing import TOP, folder, least

sys.path.append(os.path.join(TOP, 'tests/expected/graphs'))
from links import shape_files  # noqa: E402
from made import MAIN, ClassFile, frames_at  # noqa: E402

PROGRAM = os.environ.get('TEST_FLOW', os.path.join(TOP, 'crates/test_flow/out/test_flow'))
LONGEST, ENTRIES = 65535, 65535
STATIC, RUNS = 9, 3
RETURN, THROWABLE = b'\xb1', 'java/lang/Throwable'


def with_main(made, *body):
    """the class file with this body of `main`: max_stack, max_locals, code, exception entries and frames"""
    made.method(STATIC, 'main', MAIN, body)
    return made.data()


def classes():
    return 'p/Main', 'p/Main.main%s,p/C1.m0()V,p/C999.m7()V' % MAIN, shape_files('groups', 1000, 20)


def ring():
    made = ClassFile('Main')
    for number in range(1000):
        call = made.member(10, 'Main', 'r%d' % ((number + 1) % 1000), '()V')
        made.method(STATIC, 'r%d' % number, '()V', (0, 0, b'\xb8' + struct.pack('>H', call) + RETURN, [], []))
    return 'Main', 'Main.r0()V,Main.r500()V,Main.main%s' % MAIN, [with_main(made, 0, 1, RETURN, [], [])]


def one_method(piece, offset, targets):
    """a main with 8,000 times this piece behind iconst_0, istore_1, where the branch's offset is set, then `nop` to its greatest length"""
    code, places = b'\x03\x3c', []
    for _ in range(8000):
        places.append(len(code) + targets)
        code += piece + struct.pack('>h', offset)
    code += (LONGEST - 1 - len(code)) * b'\0' + RETURN
    frames = frames_at(dict.fromkeys(places))
    frames[0] = b'\xfc' + struct.pack('>H', places[0]) + b'\x01'
    return 'Main', '', [with_main(ClassFile('Main'), 1, 2, code, [], frames)]


def branches():
    return one_method(b'\x1b\x99', 3, 4)


def loops():
    return one_method(b'\x1b\x99', -1, 0)


def entries(table, handlers=1, raising=ENTRIES // 3 - 20):
    """a main of so many aload_0, arraylength, pop, and of handlers, with a table"""
    made = ClassFile('Main')
    code = raising * b'\x2a\xbe\x57' + RETURN
    first = len(code)
    code += handlers * (b'\x57' + RETURN)
    code += (LONGEST - len(code)) * b'\0'
    code = code[:-1] + RETURN
    places = {first + 2 * n: made.cls(THROWABLE) for n in range(handlers)}
    places[first + 2 * handlers] = None
    if len(code) == first + 2 * handlers:
        del places[first + 2 * handlers]
    rows = [(*table(n, first), first + 2 * (n % handlers), 0) for n in range(ENTRIES)]
    return 'Main', '', [with_main(made, 1, 1, code, rows, frames_at(places))]


def same():
    return entries(lambda n, end: (0, end))


def nested():
    return entries(lambda n, end: (n % (end // 6) * 3, end - n % (end // 6) * 3))


def each():
    return entries(lambda n, end: (n % (end // 3) * 3 + 1, n % (end // 3) * 3 + 2))


def handlers():
    return entries(lambda n, end: (n // 64 % 500 * 3, end), 64, 1000)


def overriding():
    base = ClassFile('B0')
    base.method(1, 'm', '()V', (0, 1, RETURN, [], []))
    files = [base.data()]
    for number in range(1, 1023):
        made = ClassFile('B%d' % number, 'B0')
        made.method(1, 'm', '()V', (0, 1, RETURN, [], []))
        files.append(made.data())
    made = ClassFile('Main')
    call = b'\x01\xb6' + struct.pack('>H', made.member(10, 'B0', 'm', '()V'))
    for number in range(4):
        made.method(STATIC, 'f%d' % number, '()V', (1, 0, 15000 * call + RETURN, [], []))
    code = b''.join(b'\xb8' + struct.pack('>H', made.member(10, 'Main', 'f%d' % number, '()V')) for number in range(4)) + RETURN
    return 'Main', 'Main.main%s,Main.f2()V' % MAIN, [*files, with_main(made, 0, 1, code, [], [])]


def uncalled():
    base = ClassFile('B0')
    for number in range(20000):
        base.method(1, 'm%d' % number, '()V', (0, 1, RETURN, [], []))
    files = [base.data(), *(ClassFile('B%d' % number, 'B0').data() for number in range(1, 1023))]
    return 'Main', 'Main.main%s' % MAIN, [*files, with_main(ClassFile('Main'), 0, 1, RETURN, [], [])]


MADE = {made.__name__: made for made in (classes, ring, branches, loops, same, nested, each, handlers, overriding, uncalled)}
# What isn't asked for all that is found of each method.
ORDERS = ('classes', 'ring', 'overriding', 'uncalled')


def tell(room, name):
    """prints how long a row takes as far as it goes"""
    main, roots, files = MADE[name]()
    row = ' '.join([name, main, roots or '-', *(data.hex() for data in files)]) + '\n'
    last = 'order' if name in ORDERS else 'show'
    timed = [least([PROGRAM], room, RUNS, ('%s %s' % (word, row)).encode()) for word in ('link', 'table', last)]
    link, table, shown = (each.seconds for each in timed)
    told = timed[-1].out.split(b'\n', 2)
    line = timed[1].out.split(b'\n')[1].decode() if len(told) > 1 else ''
    print('%s: link=%.3f table=%.3f %s=%.3f (%s, %d bytes put out)' % (name, link, table - link, last, shown - table, line, len(timed[-1].out)))


def main():
    with folder() as room:
        for name in sys.argv[1:] or MADE:
            tell(room, name)


if __name__ == '__main__':
    main()
