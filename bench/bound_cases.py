"""Programs and bounds of which the bound is measured, beside those of check_cases.py; bound.py has what each is."""
import struct

from sections import RETURN
from check_cases import ACONST_NULL, ICONST_0, IFEQ, ILOAD_1, INVOKESTATIC, ISTORE_1, LARGE, LONGEST, STATIC, Case, bounds_of, branch, call, switch, with_main
from made import MAIN, ClassFile, frames_at

NOP, GOTO, GOTO_W = b'\0', b'\xa7', b'\xc8'
# How far a branch reaches, in bytes.
REACH = 32767


def after_store(code, places, made, stack=1):
    """the class file of a main of this code, which begins by iconst_0, istore_1, with a frame at each of these places"""
    frames = frames_at(dict.fromkeys(places))
    frames[0] = b'\xfc' + struct.pack('>H', min(places)) + b'\1'
    return with_main(made, stack, 2, code, (), frames)


def nest(at, depth, turn):
    """the code of so many loops within one another from a place on, with a code in the innermost one; and the places of their headers, the outermost first"""
    heads = [at + 4 * level for level in range(depth)]
    body, code = at + 4 * depth, b''
    end = body + len(turn)
    for level, head in enumerate(heads):
        # iload_1, and out of this loop behind the jump back of this level
        code += ILOAD_1 + branch(IFEQ, end + 3 * (depth - level) - (head + 1))
    code += turn
    for level in reversed(range(depth)):
        code += branch(GOTO, heads[level] - (at + len(code)))
    return code, heads


def nests(count, depth, turn, bound):
    """a main with so many nests behind one another, each of whose loops goes round at most so often"""
    code, lines = ICONST_0 + ISTORE_1, ''
    places = []
    for _ in range(count):
        more, heads = nest(len(code), depth, turn)
        code += more
        # where each loop goes on behind it
        ends = [len(code) - 3 * level for level in range(depth)]
        places += heads + ends
        lines += ''.join('Main.main%s %d loop<=%d\n' % (MAIN, head, bound) for head in heads)
    code += RETURN
    return Case([after_store(code, sorted(set(places)), ClassFile('Main'))], lines, b'', LARGE)


def solved():
    """10,000 nodes with 1,000 loops, ten deep"""
    # Each nest has two nodes and a jump for each loop, and the nodes of the innermost turn.
    return nests(100, 10, 35 * (ILOAD_1 + ISTORE_1), 2)


def deep():
    """65,500 bytes of loops within one another, as deep as branches reach"""
    return nests(2, REACH // 7 - 1, b'', 1)


def deepest_number():
    """loops within one another as deep as a bound of 64 bits lets them be, as often as they go into 65,535 bytes"""
    depth = 50
    return nests((LONGEST - 3) // (7 * depth), depth, b'', 2)


def switching():
    """a switch with 8,000 targets, one behind the other, in two loops, one within the other, whose jumps back lie behind the last target"""
    outer, inner, count = 2, 4, 8000
    front = ICONST_0 + ISTORE_1 + ILOAD_1 + ISTORE_1 + ILOAD_1
    start = len(switch(front, [0] * count))
    code = switch(front, range(start, start + count)) + count * NOP
    ends = []
    for header in (inner, outer):
        code += ILOAD_1 + branch(IFEQ, 8)
        code += GOTO_W + struct.pack('>i', header - len(code))
        ends.append(len(code))
    code += RETURN
    return Case([after_store(code, [outer, inner, *range(start, start + count), *ends], ClassFile('Main'))], bounds_of([outer, inner]), b'', LARGE)


def ring():
    """1,000 methods, each of which calls the next one, and the last the first"""
    made, count = ClassFile('Main'), 1000
    for n in range(count):
        made.method(STATIC, 'm%d' % n, '()V', (0, 0, call(made, INVOKESTATIC, 'Main', 'm%d' % ((n + 1) % count)) + RETURN, [], []))
    return Case([with_main(made, 0, 1, call(made, INVOKESTATIC, 'Main', 'm0') + RETURN)], '', b'', LARGE)


MADE = {case.__name__: case for case in (solved, deep, deepest_number, switching, ring)}
