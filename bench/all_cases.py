"""Programs of many methods that call one another, and bounds of their loops; all_bounds.py has what each is."""
import struct

import check_cases  # noqa: F401  (where the modules below are found)
from check_cases import INVOKESTATIC, STATIC, call, with_main
from made import ClassFile
from sections import RETURN

# Methods of one class: as many as constant pools have room for, with a reference each.
IN_A_CLASS = 10000
# iload_0, and back to it where that isn't zero
LOOP = b'\x1a\x9a\xff\xff'


class Program:
    """classes of static methods of no arguments, by number, callees first"""

    def __init__(self):
        self.files, self.made, self.count = [], None, 0

    def owner(self, number):
        return 'C%d' % (number // IN_A_CLASS)

    def method(self, callees, code=b'', frames=(), local=0):
        """adds a method of this code, which then calls these methods"""
        if self.count % IN_A_CLASS == 0:
            self.close()
            self.made = ClassFile(self.owner(self.count))
        calls = b''.join(call(self.made, INVOKESTATIC, self.owner(callee), 'm%d' % callee) for callee in callees)
        self.made.method(STATIC, 'm%d' % self.count, '()V', (1, local, code + calls + RETURN, [], list(frames)))
        self.count += 1

    def close(self):
        if self.made:
            self.files.append(self.made.data())

    def classes(self):
        """the class files, with a main that calls the last method"""
        self.close()
        main = ClassFile('Main')
        last = self.count - 1
        return [*self.files, with_main(main, 0, 1, call(main, INVOKESTATIC, self.owner(last), 'm%d' % last) + RETURN)]


def turning(program):
    """adds a method with a loop, of which no bound is given: iconst_0, istore_0, iload_0, and back to that where it isn't zero"""
    program.method((), b'\3\x3b' + LOOP, (b'\xfc' + struct.pack('>H', 2) + b'\1',), 1)


def chain(count=20000):
    """each of which calls the one before"""
    program = Program()
    for number in range(count):
        program.method((number - 1,) if number else ())
    return program


def unbounded(count=20000):
    """so, above a loop without a bound"""
    program = Program()
    turning(program)
    for number in range(1, count):
        program.method((number - 1,))
    return program


def recursive(count=20000):
    """so, where the first calls itself"""
    program = Program()
    for number in range(count):
        program.method((number - 1 if number else 0,))
    return program


def callers(count=20000):
    """the second half of which each call the last of the first half, a chain, and themselves"""
    program = Program()
    half = count // 2
    for number in range(half):
        program.method((number - 1,) if number else ())
    for number in range(half, count):
        program.method((half - 1, number))
    return program


def twice(count=20000):
    """each of which calls the two before"""
    program = Program()
    for number in range(count):
        program.method(tuple(callee for callee in (number - 1, number - 2) if callee >= 0))
    return program


MADE = {made.__name__: made for made in (chain, unbounded, recursive, callers, twice)}
