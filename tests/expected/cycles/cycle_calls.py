#!/usr/bin/env python3
"""cycle_calls.py PLAIN: writes tests/tables/cycle: words, files, tables, what `link` refuses, settings, what the activations of slots take, how runs end, and streams of `cycle`.

The activations are found among the boundaries of the plain simulator, PLAIN (../plain.c, compiled), over the class files and the executive that cyclic.py writes. The rest was worked out by hand.
"""
import os
import sys

HERE = os.path.dirname(os.path.abspath(__file__))
sys.dont_write_bytecode = True
sys.path.insert(0, HERE)
from cyclic_rows import MOST_LENGTH, ONE, ROOM, Cyclic, CyclicRows, Slot, files, hand, slots_of, table_of, tables, unlinked, usage  # noqa: E402
from costs import Timing  # noqa: E402
from simulated import Machine  # noqa: E402

WORDS = (('cycle', 1), ('cycle %', 1), ('cycle t f', 1), ('cycle --rounds', 2), ('cycle --rounds 1', 3), ('cycle --rounds 1 t', 4), ('cycle --rounds 1 % f', 3), ('cycle --rounds 1 t %', 4),
         ('cycle --rounds 1 t f %', 5), ('cycle --rounds 0 t f', 2), ('cycle --rounds 32768 t f', 2), ('cycle --rounds 01 t f', 2), ('cycle --rounds x t f', 2), ('cycle --rounds -1 t f', 2),
         ('cycle --rounds 1 --rounds 1 t f', 3), ('cycle --read 1 t f', 3), ('cycle --cycles 9223372036854775808 --rounds 1 t f', 2), ('cycle --stack 255 --rounds 1 t f', 2),
         ('cycle --memory 15 --rounds 1 t f', 2), ('cycle --memory 16777217 --rounds 1 t f', 2), ('cycle --blocks 0 --rounds 1 t f', 2), ('cycle --block-words 1025 --rounds 1 t f', 2),
         ('cycle --read 64 --rounds 1 t f', 2), ('cycle --write 64 --rounds 1 t f', 2), ('cycle --micro --rounds 1 t f', 1), ('cycle --method A.e()V --rounds 1 t f', 1),
         ('cycle --all --rounds 1 t f', 1), ('cycle --shapes --rounds 1 t f', 1), ('cycle --main A --rounds 1 t f', 1), ('cycle --rounds 1 --cycles 5 --cycles 5 t f', 5),
         ('cycles --rounds 1 t f', 0), ('cycl --rounds 1 t f', 0), ('run --rounds 1 i', 1), ('profile --rounds 1 i b', 1))


class Cycles(CyclicRows):
    """rows that say what was run"""

    def __init__(self, plain):
        super().__init__('cycle', plain)

    def cycle(self, files, slots, rounds=1, machine=Machine(), given=None, source='', fails=None, wanted=None):
        """a row, whose line begins as it is said; it gives the slot and the cycles of each activation"""
        known = Cyclic(self.plain, files, slots, rounds)
        status, line, out = known.cycled(machine, given or b'', fails)
        assert wanted is None or line.startswith(wanted), (wanted, line)
        front = '<' + source if source else '<' + given.hex() if given is not None else ''
        self.add(self.words(' '.join(['--rounds', str(rounds), *machine.options()]), len(files), front), status, line, out, **self.given(slots, files))
        return known.uses(known.known.run(given or b'', machine, fails).heres) if status in (0, 1, 3) else []

    def mixed(self, files, names, wanted, **more):
        """a row, and one of lengths that some activations keep and some don't: the greatest but one cycle of each slot"""
        uses = self.cycle(files, slots_of(names), wanted=wanted, **more)
        dearest = [max([use for number, use in uses if number == place], default=2) - 1 for place in range(len(names))]
        again = self.cycle(files, [Slot('A.%s()V' % name, max(1, most)) for name, most in zip(names, dearest)], **more)
        assert uses == again
        return uses


def known_rows(rows):
    """one slot, three rounds: all but the uses is idle; of length 1 all are late"""
    uses = [use for _, use in rows.cycle(hand.small(), ONE, 3, wanted='ended slots=3 late=0 idle=')]
    wanted = 'ended slots=3 late=0 idle=%d ' % (300000 - sum(uses))
    rows.cycle(hand.small(), ONE, 3, wanted=wanted)
    rows.cycle(hand.small(), [Slot('A.e()V', 1)], 3, wanted='ended slots=3 late=3 idle=0 ')
    # the first one loads the codes: with its cycles as length nothing is late, with one less it alone is, and it adds nothing to idle
    assert uses[0] > uses[1] == uses[2]
    rows.cycle(hand.small(), [Slot('A.e()V', uses[0])], 3, wanted='ended slots=3 late=0 idle=%d ' % (2 * (uses[0] - uses[1])))
    rows.cycle(hand.small(), [Slot('A.e()V', uses[0] - 1)], 3, wanted='ended slots=3 late=1 idle=%d ' % (2 * (uses[0] - 1 - uses[1])))
    rows.cycle(hand.small(), [Slot('A.e()V', uses[1])], 3, wanted='ended slots=3 late=1 idle=0 ')
    rows.cycle(hand.small(), [Slot('A.e()V', uses[1] - 1)], 3, wanted='ended slots=3 late=3 idle=0 ')
    # more than 64 bits
    rows.cycle(hand.small(), [Slot('A.e()V', MOST_LENGTH)], 3, wanted='ended slots=3 late=0 idle=%d ' % (3 * MOST_LENGTH - sum(uses)))


def shapes(rows):
    """tables and programs of each shape, on machines of several"""
    working = hand.working()
    for machine in (Machine(), Machine(Timing(5, 9, 8, 64)), Machine(Timing(63, 63, 80, 1), stack=256), Machine(Timing(0, 0, 256, 1024), stack=512)):
        assert len(rows.mixed(working, 'etwl', 'ended slots=12 ', rounds=3, machine=machine)) == 12
    for rounds in (1, 2):
        rows.cycle(working, slots_of('e'), rounds, wanted='ended slots=%d ' % rounds)
    rows.cycle(hand.small(), slots_of('e', 200), 32767, wanted='ended slots=32767 ')
    for count in (17, 18, 64):
        rows.cycle(working, slots_of('etwl' * 16, 400)[:count], 2, wanted='ended slots=%d ' % (2 * count))
    rows.cycle(working, [Slot('A.e()V', 1), Slot('A.e()V', 100000)], 2, wanted='ended slots=4 late=2 idle=')
    rows.cycle(hand.below(), [Slot('B.e()V', 180), Slot('A.e()V', 180)], 3, wanted='ended slots=6 ')
    rows.cycle(hand.packed(), [Slot('plant/Lift.step()V', 180), Slot('plant/Lift.größe()V', 180)], 3, wanted='ended slots=6 ')
    # the codes of a slot that calls another one's method are that one's, too
    rows.cycle(working, slots_of('te'), 1, wanted='ended slots=2 ')


def nested(rows):
    """the calls of another executive are none of a slot, though they stand at the same places; those of the same one are"""
    rows.mixed(hand.nested(), 'nje', 'ended slots=6 ', rounds=2)
    rows.mixed(hand.nested(), 'nw', 'ended slots=4 ', rounds=2)
    # in two rounds r and e twice, and as often within the first r
    assert len(rows.mixed(hand.again(), 're', 'ended slots=8 ', rounds=2)) == 8
    assert len(rows.mixed(hand.again(), 'ere', 'ended slots=12 ', rounds=2)) == 12
    assert len(rows.mixed(hand.before(), 'e', 'ended slots=6 ', rounds=3)) == 6


def raised(rows):
    """an activation that an exception leaves has ended"""
    rows.mixed(hand.raising(), 'ec', 'ended slots=4 ', rounds=2)
    for name in 'xyz':
        rows.mixed(hand.raising(), 'e' + name + 'e', 'uncaught java/lang/ArithmeticException slots=2 ', rounds=2)
    rows.mixed(hand.raising(), 'x', 'uncaught java/lang/ArithmeticException slots=1 ')
    # r, e and x within the first r, which catches what x throws; then e, and x, which nothing catches
    rows.mixed(hand.caught(), 'rex', 'uncaught java/lang/ArithmeticException slots=6 ', rounds=2)
    rows.mixed(hand.deep(), 'eo', 'uncaught java/lang/StackOverflowError slots=2 ')
    rows.mixed(hand.deep(), 'ese', 'ended slots=6 ', rounds=2, machine=Machine(stack=512))
    # a slot for which there is no room makes no frame, so that nothing of it begins
    rows.mixed(hand.wide(), 'ea', 'uncaught java/lang/StackOverflowError slots=1 ', machine=Machine(stack=256))
    rows.mixed(hand.wide(), 'ea', 'ended slots=2 ', machine=Machine(stack=512))


def spent(rows):
    """runs that are stopped: what has begun, and hasn't ended, doesn't count"""
    known = Cyclic(rows.plain, hand.never(), slots_of('eeg'), 2)
    heres = known.known.run(b'', Machine(cycles=3000)).heres
    rows.cycle(hand.never(), slots_of('eeg'), 2, Machine(cycles=3000), wanted='spent slots=2 late=0 ')
    ends = [next(place for place, here in enumerate(heres) if here.place == behind and here.method.startswith('Cyclic.')) for behind in (12, 15)]
    for number, place in enumerate(ends):
        for cycles, ended in ((heres[place - 1].clock, number), (heres[place - 1].clock + 1, number + 1), (heres[place].clock, number + 1)):
            rows.cycle(hand.never(), slots_of('eeg'), 2, Machine(cycles=cycles), wanted='spent slots=%d ' % ended)
    rows.cycle(hand.never(), slots_of('g'), 1, Machine(cycles=3000), wanted='spent slots=0 late=0 idle=0 ')
    rows.cycle(hand.small(), slots_of('e'), 1, Machine(cycles=0), wanted='spent slots=0 late=0 idle=0 cycles=0')
    rows.cycle(hand.small(), slots_of('e'), 32767, Machine(cycles=100000), wanted='spent slots=')
    whole = Cyclic(rows.plain, hand.working(), slots_of('ew'), 2).cycled(Machine())[1]
    last = int(whole.rpartition('=')[2])
    for cycles in (last - 1, last, last + 1):
        rows.cycle(hand.working(), slots_of('ew'), 2, Machine(cycles=cycles), wanted='spent slots=4 ' if cycles < last - 1 else None)


def settings(rows):
    """a code that is too long, and a memory that is too small, each behind the linking and in this order"""
    working = hand.working()
    rows.cycle(working, slots_of('e', 1), machine=Machine(Timing(1, 2, 1, 1), memory=16), wanted='method too long ')
    rows.cycle(working, slots_of('e', 1), machine=Machine(Timing(1, 2, 1, 75), memory=16), wanted='method too long A.l()V blocks=2 limit=1')
    many = slots_of('e' * 64)
    rows.cycle(hand.small(), many, machine=Machine(Timing(1, 2, 1, 51), memory=16), wanted='method too long Cyclic.main([Ljava/lang/String;)V blocks=2 limit=1')
    words = Cyclic(rows.plain, hand.small(), many, 1).known.words
    for memory in (16, words - 1):
        rows.cycle(hand.small(), many, machine=Machine(memory=memory), wanted='memory too small words=%d given=%d' % (words, memory))
    rows.cycle(hand.small(), many, machine=Machine(memory=words), wanted='uncaught java/lang/OutOfMemoryError slots=0 ')
    rows.cycle(hand.small(), many, machine=Machine(memory=words + 2), wanted='ended slots=64 ')
    rows.add(rows.words('--rounds 1 --memory 16777216', front=ROOM), 5, 'no memory', **rows.given(ONE, hand.small()))
    rows.add(rows.words('--rounds 1 --memory 16777216', front=ROOM), 2, 'slots 0', **rows.given([], hand.small()))


def streams(rows):
    good, most = files(rows)
    known = Cyclic(rows.plain, hand.small(), ONE, 1)
    quiet = known.cycled(Machine())
    padded = '=%d*0a+%s' % (most - len(good['t']), good['t'].encode().hex())
    rows.add(rows.words(), *quiet, **{**good, 't': padded})
    reading, slots = hand.reading(), slots_of('r')
    for given, rounds in ((b'ab', 1), (b'ab', 2), (b'ab', 3), (b'', 2), (b'\xff\0', 2)):
        rows.cycle(reading, slots, rounds, given=given, wanted='ended slots=%d ' % rounds)
    both = Cyclic(rows.plain, reading, slots, 2)
    status, line, out = both.cycled(Machine(), b'ab')
    rows.add(rows.words('--rounds 2', front='<slow:6162'), status, line, out, **rows.given(slots, reading))
    rows.add(rows.words('--rounds 2', front='<slow:6162 >slow'), status, line, out, **rows.given(slots, reading))
    for source in ('closed', 'folder'):
        rows.cycle(reading, slots, 2, source=source, fails=0, wanted='read fault')
        # nothing is read
        rows.add(rows.words(front='<' + source), *quiet, **good)
    for stream in ('full', 'closed', 'gone'):
        rows.add(rows.words('--rounds 2', front='<6162 >' + stream), 4, 'write fault', **rows.given(slots, reading))
        rows.add(rows.words('--rounds 2', front='<6162 >%s 2>%s' % (stream, stream)), 4, '', **rows.given(slots, reading))
        rows.add(rows.words('--rounds 2', front='<6162 2>' + stream), 4, '', out, **rows.given(slots, reading))
        # nothing is put
        rows.add(rows.words(front='>' + stream), *quiet, **good)
        rows.add(rows.words(front='2>' + stream), 4, '', **good)
        rows.add(rows.words(front='2>' + stream), 4, '', **{**good, 't': ''})


def main():
    rows = Cycles(sys.argv[1])
    usage(rows, WORDS)
    known_rows(rows)
    tables(rows, 6)
    unlinked(rows)
    shapes(rows)
    nested(rows)
    raised(rows)
    spent(rows)
    settings(rows)
    streams(rows)
    rows.written()


if __name__ == '__main__':
    main()
