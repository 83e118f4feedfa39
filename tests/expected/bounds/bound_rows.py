"""Rows of bounds: each cause of a refusal, numbers by hand, programs of javac and made programs."""
import os
import random
import struct
import sys

HERE = os.path.dirname(os.path.abspath(__file__))
sys.path[:0] = [HERE, os.path.join(HERE, '../graphs'), os.path.join(HERE, '../../harness')]
import analysis  # noqa: E402
import made  # noqa: E402
import programs  # noqa: E402
from costs import Timing  # noqa: E402
from hand_rows import TWO_LINES, TWO_REGIONS  # noqa: E402
from study import Study  # noqa: E402
from tables import FIRST, MADE, MAIN, SMALL, bounds_of, javac_programs, region_bounds  # noqa: E402


def by_hand(table):
    """each answer, with numbers that were worked out from docs/costs.md"""
    table.program('worked', 'A', [programs.worked()])
    load, line = Study(table.known, Timing(), {}).greatest_load(), 'JOPC 2, bound %d, holds %s %d'

    def number(title, method, lines, value):
        table.bound(title, Timing(), method, lines, line % (128 + value + load, method, 128 + value + load))
    number('a return', 'A.e()V', [], 53 + 7)
    number('a loop', 'A.n()V', ['A.n()V 2 loop<=10'], 2 + 170 + 58 + 16)
    number('a loop that is left at once', 'A.n()V', ['A.n()V 2 loop<=0'], 2 + 58 + 16)
    number('a loop of many turns', 'A.n()V', ['A.n()V 2 loop<=4294967295'], 2 + 17 * 4294967295 + 58 + 16)
    number('a loop from the start on', 'A.l(I)V', ['A.l(I)V 0 loop<=3'], 58 + 51 + 13)
    number('a call', 'A.c()V', [], 93 + 53 + 103 + 14)
    number('a call that never ends', 'A.h()V', ['A.g()V 0 loop<=5'], 93 + 103 + 14)
    number('a division', 'A.d(II)I', [], 1202 + 164 + 55 + 10)
    table.bound('never', Timing(), 'A.g()V', ['A.g()V 0 loop<=5'], 'JOPC 2, bound never, holds A.g()V never')
    table.bound('no line', Timing(), 'A.g()V', [], 'bound: missing bound A.g()V 0')
    table.bound('no line of a called one', Timing(), 'A.h()V', ['A.h()V 0 loop<=1'], 'bound: missing bound A.g()V 0')
    table.bound('no line of one of two', Timing(), 'A.b()V', [], 'bound: missing bound A.k()V 2')
    for method in ('A.q()V', 'A.e', 'A.e()I', 'B.e()V', 'jop/Boot.boot()V', 'java/io/Serializable.e()V'):
        table.bound('no method', Timing(), method, [], 'bound: no method')
    table.bound('a core class', Timing(), 'java/lang/String.length()I', [])
    table.bound('bad bounds', Timing(), 'A.q()V', ['A.n()V 2 loop<=10', 'x'], 'bad bounds line=2')
    table.bound('twice', Timing(), 'A.q()V', ['A.n()V 2 loop<=10', '', 'A.n()V 2 loop<=11'], 'twice bound line=3')
    table.bound('too long', Timing(blocks=1, block_words=1), 'A.q()V', ['x'])
    others(table)
    regions(table)
    large(table)


def others(table):
    """which cause comes first"""
    table.program('refused', 'A', [programs.refused()])
    lines = ['A.g()V 0 loop<=1']
    table.bound('two ways into a loop', Timing(), 'A.m(I)V', [], 'bound: irreducible A.m(I)V 4 7')
    table.bound('a call of itself', Timing(), 'A.r()V', [], 'bound: recursion A.r()V')
    table.bound('irreducible before a line that lacks', Timing(), 'A.both()V', [], 'bound: irreducible A.m(I)V 4 7')
    table.bound('recursion before both', Timing(), 'A.all()V', [], 'bound: recursion A.r()V')
    table.bound('recursion in code that is not reached', Timing(), 'A.dead()V', lines, 'bound: recursion A.r()V')
    table.bound('a loop in a method that is not called', Timing(), 'A.deadloop()V', [], 'bound: missing bound A.g()V 0')
    table.bound('its line given', Timing(), 'A.deadloop()V', lines)


def regions(table):
    table.program('regions', 'A', [programs.regions()])
    line, lines = 'JOPC 2, bound %d, holds A.m()V %d', ['A.m()V 5 loop<=10']
    table.bound('a region', Timing(), 'A.m()V', lines, line % (10322, 10322))
    table.bound('in 15 blocks', Timing(blocks=15), 'A.m()V', lines, line % (49654, 49654))
    table.bound('in 19 blocks', Timing(blocks=19), 'A.m()V', lines, line % (10322, 10322))
    # each of the four methods is loaded once: 772 * 2 + 1156 * 2; the first call costs 93 + 53
    inside = 128 + (93 + 53) + 2 + 10 * 309 + 400 + 3856 + 1156
    table.bound('in 20 blocks', Timing(blocks=20), 'A.m()V', lines, line % (inside, inside))
    table.bound('its caller', Timing(), 'A' + MAIN, lines)
    table.bound('its caller in 23 blocks', Timing(blocks=23), 'A' + MAIN, lines)
    table.bound('a seldom turned region', Timing(), 'A.m()V', ['A.m()V 5 loop<=0'])
    table.program('regions_too_large', 'A', [programs.regions(385)])
    table.bound('one block too large', Timing(), 'A.m()V', lines)
    table.program('two_regions', 'A', [programs.two_regions()])
    table.bound('two regions', Timing(), 'A.p()V', TWO_LINES, 'JOPC 2, bound %d, holds A.p()V %d' % (TWO_REGIONS, TWO_REGIONS))
    for blocks in (8, 11, 12, 19, 20):
        table.bound('in %d blocks' % blocks, Timing(blocks=blocks), 'A.p()V', TWO_LINES)


def nested(depth):
    """code of so many loops within one another, each of which is left where a local is at most 0, and the places that need frames"""
    inner = 4 * depth
    starts, exits = [4 * d for d in range(depth)], [inner + 3 * (depth - d) for d in range(depth)]
    code = b''.join(b'\x1a\x9e' + struct.pack('>h', end - start - 1) for start, end in zip(starts, exits))
    for start in reversed(starts):
        code += programs.GOTO + struct.pack('>h', start - len(code))
    return code + programs.RETURN, sorted({*starts, *exits})


def large(table):
    """numbers at 64 bits and past them"""
    k = programs.Hand()
    for depth in (2, 3):
        code, places = nested(depth)
        frames = [bytes([place - before - 1]) for before, place in zip([-1, *places], places)]
        k.static('n%d' % depth, '(I)V', code, frames=frames)
    k.static('c', '(I)V', b'\x1a' + k.call('n2', '(I)V') + programs.RETURN)
    k.main()
    table.program('large', 'A', [k.data()])
    most = 2**32 - 1
    for method, headers in (('n2', (0, 4)), ('n3', (0, 4, 8))):
        for bounds in ((most,) * 3, (most, most // 9, 0), (most, 0, most), (0, most, most), (65535, 65535, 65535), (most // 16, most // 9, 1), (2**31, 2**29 // 9, 0)):
            table.bound('loops within loops', Timing(), 'A.%s(I)V' % method, ['A.%s(I)V %d loop<=%d' % (method, h, n) for h, n in zip(headers, bounds)])
    at_limit(table, 'A.n2(I)V', Timing())
    at_limit(table, 'A.c(I)V', Timing())


def at_limit(table, method, timing):
    """bounds of the two loops of n2 with which the number is the greatest that is printed, or nearly so, and ones with which it is too large"""
    def lines(outer, inner):
        return ['A.n2(I)V 0 loop<=%d' % outer, 'A.n2(I)V 4 loop<=%d' % inner]

    def refused(outer, inner):
        return table.line(timing, method, lines(outer, inner)).startswith('bound: too large')
    for outer in (2**32 - 1, 2**31, 2**32 - 5):
        low, high = 0, 2**32 - 1
        while high - low > 1:
            middle = (low + high) // 2
            low, high = (low, middle) if refused(outer, middle) else (middle, high)
        table.bound('the last number', timing, method, lines(outer, low))
        table.bound('the first that is too large', timing, method, lines(outer, high))


def bounds_of_javac(table):
    for title, main, reference in javac_programs():
        _, _, files = analysis.program_of(' '.join(['program', title, main, *reference]))
        table.program(title, main, files, reference)
        program_bounds(table, random.Random('bounds ' + title), (Timing(), SMALL, Timing(0, 63, 6, 32)))


def bounds_of_made(table):
    for seed in range(FIRST, FIRST + MADE):
        files = made.Maker(seed, 10).made()
        table.program('made%d' % seed, 'Main', files)
        chance = random.Random(seed)
        program_bounds(table, chance, [chance.choice([Timing(), SMALL, Timing(0, 63, 6, 32)])])


def program_bounds(table, chance, timings):
    """the bounds of a program's own methods"""
    program = table.known
    bounds = bounds_of(program, chance, 0, 12)
    if chance.random() < 0.3:
        bounds = {key: chance.choice([n, n, 2**32 - 1, 2**31]) for key, n in bounds.items()}
    own = [m for m in range(len(program.coded)) if program.is_own(m) and program.coded[m][0] != len(program.classes) - 1]
    for timing in timings:
        study = Study(program, timing, bounds)
        for m in own if len(timings) == 1 else sorted(chance.sample(own, min(3, len(own)))):
            cause = study.cause(program.names[m])
            if cause and cause.startswith('recursion') and len(cause.split(' ')) != 2:
                continue  # which cycle is told, and from where on, is free
            lines = region_bounds(study, m) if not cause or not cause.startswith('recursion') else []
            if cause is None and lines and chance.random() < 0.1:
                lines = lines[:-1]
            table.bound(program.names[m].split('(')[0], timing, program.names[m], lines)
