"""Rows of the bounds of all methods: each answer by hand, programs of javac and made programs."""
import os
import random
import sys

HERE = os.path.dirname(os.path.abspath(__file__))
sys.path[:0] = [HERE, os.path.join(HERE, '../graphs'), os.path.join(HERE, '../../harness')]
import analysis  # noqa: E402
import made  # noqa: E402
import programs  # noqa: E402
from bound_rows import nested  # noqa: E402
from costs import Timing  # noqa: E402
from study import Study  # noqa: E402
from tables import FIRST, MADE, SMALL, bounds_of, javac_programs, lines_of  # noqa: E402

RETURN = programs.RETURN
MOST = 2**32 - 1


def rings():
    """methods that call one another in rings, with callees that have numbers, beside one that calls into a ring and one that doesn't"""
    k = programs.Hand()
    k.static('leaf', '()V', RETURN)
    code, _, frames = programs.counting(b'', b'')
    k.static('turns', '()V', code, frames=frames)
    k.static('alone', '()V', k.call('alone') + k.call('leaf') + RETURN)
    k.static('first', '()V', k.call('leaf') + k.call('second') + RETURN)
    k.static('second', '()V', k.call('third') + RETURN)
    k.static('third', '()V', k.call('turns') + k.call('first') + RETURN)
    k.static('into', '()V', k.call('third') + RETURN)
    k.static('beside', '()V', k.call('leaf') + k.call('turns') + RETURN)
    # the call is never reached, but it counts
    k.static('dead', '()V', RETURN + k.call('alone') + RETURN, frames=[b'\x01'])
    k.static('endless', '()V', programs.GOTO + b'\0\0', frames=[b'\0'])
    k.static('waits', '()V', k.call('endless') + RETURN)
    k.static('g g', '()V', RETURN)
    k.static('#g', '()V', k.call('g g') + RETURN)
    k.main(k.call('beside') + RETURN)
    return k.data()


def several():
    """two methods that aren't reducible, methods that call both, and one with a space in its name that isn't"""
    k = programs.Hand()
    for name in ('m', 'n', 'o o'):
        k.static(name, '(I)V', bytes.fromhex('1a9900060000001a9afffcb1'), frames=[b'\x04', b'\x02'])
    code, _, frames = programs.counting(b'', b'')
    k.static('turns', '()V', code, frames=frames)
    k.static('both', '()V', b'\x03' + k.call('n', '(I)V') + b'\x03' + k.call('m', '(I)V') + RETURN)
    k.static('later', '()V', k.call('turns') + b'\x03' + k.call('n', '(I)V') + RETURN)
    k.static('spaced', '()V', b'\x03' + k.call('o o', '(I)V') + RETURN)
    k.static('ring', '()V', b'\x03' + k.call('m', '(I)V') + k.call('ring') + RETURN)
    k.main()
    return k.data()


def large():
    """loops within loops, a method that calls them, and one that doesn't"""
    k = programs.Hand()
    code, places = nested(2)
    k.static('n', '(I)V', code, frames=[bytes([place - before - 1]) for before, place in zip([-1, *places], places)])
    k.static('calls', '(I)V', b'\x1a' + k.call('n', '(I)V') + RETURN)
    k.static('not', '()V', RETURN)
    k.main()
    return k.data()


def by_hand(table):
    """each answer"""
    usual = Timing()
    table.program('worked', 'A', [programs.worked()])
    load = Study(table.known, usual, {}).greatest_load()
    table.all('no bounds', usual, [], ['A.e()V bound=%d' % (128 + 53 + 7 + load), 'A.g()V bound=none missing bound A.g()V 0', 'A.h()V bound=none missing bound A.g()V 0',
                                       'A.n()V bound=none missing bound A.n()V 2', 'A.b()V bound=none missing bound A.k()V 2'])
    table.all('one that never ends, and one that calls it', usual, ['A.g()V 0 loop<=5'], ['A.g()V bound=never', 'A.h()V bound=%d' % (128 + 93 + 103 + 14 + load)])
    every = ['A.g()V 0 loop<=5', 'A.n()V 2 loop<=10', 'A.l(I)V 0 loop<=3', 'A.k()V 2 loop<=%d' % MOST]
    table.all('each line', usual, every, ['A.n()V bound=%d' % (128 + 2 + 170 + 58 + 16 + load), 'A.d(II)I bound=%d' % (128 + 1202 + 164 + 55 + 10 + load)])
    table.all('options', SMALL, every)
    table.all('waits', Timing(63, 0, 256, 1024), every)
    table.all('a line of nothing', usual, ['B.x()V 0 loop<=1', '', '# x', *every])
    table.all('bad', usual, ['A.g()V 0 loop<=5', 'A.java:3 loop<=5'], 'bad bounds line=2')
    table.all('twice', usual, ['A.g()V 0 loop<=5', 'A.g()V 0 loop<=5', 'x'], 'twice bound line=2')
    table.all('too long before bad', Timing(blocks=1, block_words=1), ['x'])
    table.program('refused', 'A', [programs.refused()])
    table.all('no bounds', usual, [], ['A.m(I)V bound=none irreducible A.m(I)V', 'A.r()V bound=none recursion', 'A.both()V bound=none irreducible A.m(I)V', 'A.all()V bound=none recursion',
                                       'A.dead()V bound=none recursion', 'A.deadloop()V bound=none missing bound A.g()V 0'])
    table.all('a line', usual, ['A.g()V 0 loop<=1'], ['A.g()V bound=never'])
    table.program('rings', 'A', [rings()])
    refused = ['A.%s()V bound=none recursion' % name for name in ('alone', 'first', 'second', 'third', 'into', 'dead')]
    table.all('no bounds', usual, [], [*refused, 'A.turns()V bound=none missing bound A.turns()V 2', 'A.beside()V bound=none missing bound A.turns()V 2'])
    table.all('callees have numbers', usual, ['A.turns()V 2 loop<=10', 'A.endless()V 0 loop<=1'], [*refused, 'A.endless()V bound=never'])
    table.program('several', 'A', [several()])
    table.all('no bounds', usual, [], ['A.both()V bound=none irreducible A.m(I)V', 'A.later()V bound=none irreducible A.n(I)V', 'A.spaced()V bound=none irreducible A.o\\x20o(I)V',
                                       'A.ring()V bound=none recursion'])
    table.program('large', 'A', [large()])
    lines = ['A.n(I)V 0 loop<=%d' % MOST, 'A.n(I)V 4 loop<=%d' % MOST]
    table.all('too large', usual, lines, ['A.n(I)V bound=none too large A.n(I)V', 'A.calls(I)V bound=none too large A.n(I)V'])
    table.all('not too large', usual, [lines[0], lines[1].replace(str(MOST), '3')])
    table.program('regions', 'A', [programs.regions()])
    for timing in (usual, Timing(blocks=15), Timing(blocks=19), Timing(blocks=20), Timing(blocks=23)):
        table.all('in %d blocks' % timing.blocks, timing, ['A.m()V 5 loop<=10'])
    at_limit(table)


def at_limit(table):
    """bounds with which a method has the last number within 64 bits, the one that calls it has none, and then neither has one"""
    table.program('limit', 'A', [large()])

    def lines(inner):
        return ['A.n(I)V 0 loop<=%d' % MOST, 'A.n(I)V 4 loop<=%d' % inner]
    for method in ('calls', 'n'):
        name, low, high = 'A.%s(I)V' % method, 0, MOST
        while high - low > 1:
            middle = (low + high) // 2
            study = Study(table.known, Timing(), {('A.n(I)V', 0): MOST, ('A.n(I)V', 4): middle})
            low, high = (low, middle) if study.cause(name) else (middle, high)
        table.all('the last number of %s' % method, Timing(), lines(low))
        table.all('the first that is too large for %s' % method, Timing(), lines(high))


def of_javac(table):
    for title, main, reference in javac_programs():
        _, _, files = analysis.program_of(' '.join(['program', title, main, *reference]))
        table.program(title, main, files, reference)
        rows_of(table, random.Random('all ' + title))


def of_made(table):
    for seed in range(FIRST, FIRST + MADE, 2):
        table.program('made%d' % seed, 'Main', made.Maker(seed, 10).made())
        rows_of(table, random.Random('all %d' % seed))


def rows_of(table, chance):
    """the bounds of a program without lines, with all of them and with some, on a machine of three"""
    bounds = bounds_of(table.known, chance, 0, 12)
    bounds = {key: chance.choice([n, n, n, MOST]) for key, n in bounds.items()}
    lines = lines_of(bounds)
    table.all('no bounds', Timing(), [])
    if lines:
        table.all('all bounds', chance.choice([Timing(), SMALL, Timing(0, 63, 6, 32)]), lines)
        table.all('some bounds', Timing(), [line for line in lines if chance.random() < 0.7])
