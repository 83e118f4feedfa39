#!/usr/bin/env python3
"""plan_calls.py PLAIN: writes tests/tables/plan: words, files, tables, what `link` refuses, texts of bounds, bounds beside lengths, and streams of `plan`.

The numbers are those of ../bounds over the class files and the executive that cyclic.py writes. PLAIN is the plain simulator, ../plain.c, compiled. The rest was worked out by hand.
"""
import os
import sys

HERE = os.path.dirname(os.path.abspath(__file__))
sys.dont_write_bytecode = True
sys.path.insert(0, HERE)
from cyclic_rows import LIMIT, MOST_LENGTH, ONE, Cyclic, CyclicRows, Slot, files, hand, slots_of, table_of, tables, unlinked, usage  # noqa: E402
from simulated import Machine  # noqa: E402
from costs import Timing  # noqa: E402

COUNTED = 'A.t()V 2 loop<=5\n'
WORDS = (('plan', 1), ('plan %', 1), ('plan t b f', 1), ('plan --rounds', 2), ('plan --rounds 1', 3), ('plan --rounds 1 t', 4), ('plan --rounds 1 t b', 5), ('plan --rounds 1 % b f', 3),
         ('plan --rounds 1 t % f', 4), ('plan --rounds 1 t b %', 5), ('plan --rounds 1 t b f %', 6), ('plan --rounds 0 t b f', 2), ('plan --rounds 32768 t b f', 2),
         ('plan --rounds 01 t b f', 2), ('plan --rounds x t b f', 2), ('plan --rounds -1 t b f', 2), ('plan --rounds % t b f', 2), ('plan --rounds 65537 t b f', 2),
         ('plan --rounds 4294967297 t b f', 2), ('plan --rounds 1 --rounds 1 t b f', 3), ('plan --read 1 t b f', 3), ('plan --blocks 0 --rounds 1 t b f', 2),
         ('plan --blocks 257 --rounds 1 t b f', 2), ('plan --block-words 1025 --rounds 1 t b f', 2), ('plan --read 64 --rounds 1 t b f', 2), ('plan --write 64 --rounds 1 t b f', 2),
         ('plan --rounds 1 --method A.e()V t b f', 3), ('plan --all --rounds 1 t b f', 1), ('plan --shapes --rounds 1 t b f', 1), ('plan --stack 256 --rounds 1 t b f', 1),
         ('plan --memory 16 --rounds 1 t b f', 1), ('plan --cycles 5 --rounds 1 t b f', 1), ('plan --micro --rounds 1 t b f', 1), ('plan --main A --rounds 1 t b f', 1),
         ('plan --rounds 1 --read 1 --read 1 t b f', 5), ('plans --rounds 1 t b f', 0), ('Plan --rounds 1 t b f', 0), ('bound --rounds 1 --all i b', 1), ('check --rounds 1 i b c', 1))


class Plans(CyclicRows):
    """rows that say what is planned"""

    def __init__(self, plain):
        super().__init__('plan', plain)

    def plan(self, files, slots, bounds='', rounds=1, timing=Timing(), wanted=None):
        """a row, whose answer begins as it is said; it gives the bounds"""
        status, line, out = Cyclic(self.plain, files, slots, rounds).planned(timing, bounds.encode())
        assert wanted is None or (line or out.decode()).startswith(wanted), (wanted, line, out)
        self.add(self.words(' '.join(['--rounds', str(rounds), *timing.options()]), len(files)), status, line, out, **self.given(slots, files, bounds))
        return [int(each.split(' bound=')[1].split(' ')[0]) for each in out.decode().splitlines()]


def known_rows(rows):
    """one slot, three rounds: its bound is that of a method of one return, and the length is kept or not"""
    bound = rows.plan(hand.small(), ONE, rounds=3, wanted='slot 0 A.e()V bound=')[0]
    for length in (1, bound - 1, bound, bound + 1, MOST_LENGTH):
        wanted = 'slot 0 A.e()V bound=%d length=%d\n' % (bound, length) if bound <= length else 'plan: late 0 bound=%d length=%d' % (bound, length)
        rows.plan(hand.small(), [Slot('A.e()V', length)], rounds=3, wanted=wanted)
    # neither the rounds nor a remark change anything
    for rounds in (1, 32767):
        assert rows.plan(hand.small(), ONE, rounds=rounds) == [bound]
    text = '# the slots\n\nslot A.e()V 100000\n#slot A.e()V 1\n\nslot A.e()V 18446744073709551615'
    rows.add(rows.words(), *Cyclic(rows.plain, hand.small(), [*ONE, Slot('A.e()V', MOST_LENGTH)], 1).planned(Timing(), b''), **rows.given(text, hand.small()))


def kept(rows):
    """slots whose bounds fit"""
    working = hand.working()
    bounds = rows.plan(working, slots_of('etwl'), COUNTED, wanted='slot 0 A.e()V ')
    assert len(bounds) == 4
    for timing in (Timing(0, 0, 256, 1024), Timing(5, 9, 8, 64), Timing(63, 63, 80, 1)):
        rows.plan(working, slots_of('etwl', MOST_LENGTH), COUNTED, timing=timing, wanted='slot 0 A.e()V ')
    rows.plan(working, [Slot('A.%s()V' % name, bound) for name, bound in zip('etwl', bounds)], COUNTED, wanted='slot 0 A.e()V ')
    # as many slots as there may be, around the last short frame of the executive, and long ones
    for count in (17, 18, 64):
        assert len(rows.plan(working, slots_of('etwl' * 16)[:count], COUNTED, wanted='slot 0 A.e()V ')) == count
    rows.plan(hand.below(), [Slot('B.e()V', 300), Slot('A.e()V', 300)], wanted='slot 0 B.e()V ')
    rows.plan(hand.packed(), [Slot('plant/Lift.step()V', 300), Slot('plant/Lift.größe()V', 300)], wanted='slot 0 plant/Lift.step()V ')
    turns = 'p/Cyclic.main([Ljava/lang/String;)V 2 loop<=2\nA.i(I)V 2 loop<=2\n'
    rows.plan(hand.nested(), slots_of('nje'), turns, wanted='slot 0 A.n()V ')
    # the initialiser runs the slots, too; what may throw is bounded like all else
    rows.plan(hand.before(), slots_of('e'), wanted='slot 0 A.e()V ')
    rows.plan(hand.raising(), slots_of('excyz'), wanted='slot 0 A.e()V ')
    rows.plan(hand.reading(), slots_of('r'), wanted='slot 0 A.r()V ')


def refused(rows):
    """the first slot of which no bound can be said, and each cause in front of the later ones"""
    working, graphs = hand.working(), [hand.refused()]
    rows.plan(working, slots_of('et'), wanted='plan: slot 1 missing bound A.t()V 2')
    rows.plan(working, slots_of('et', 1), wanted='plan: late 0 ')
    rows.plan(working, [Slot('A.e()V', 1000), *slots_of('w', 1), *slots_of('t')], wanted='plan: late 1 ')
    rows.plan(working, slots_of('tt'), COUNTED.replace('5', '1000'), wanted='plan: late 0 ')
    rows.plan(working, slots_of('e' * 63 + 't'), wanted='plan: slot 63 missing bound A.t()V 2')
    # bounds of other loops, and of none
    rows.plan(working, slots_of('et'), 'A.t()V 3 loop<=5\nB.t()V 2 loop<=5\n', wanted='plan: slot 1 missing bound A.t()V 2')
    rows.plan(graphs, slots_of('r'), wanted='plan: slot 0 recursion A.r()V')
    rows.plan(graphs, slots_of('both'.split()), wanted='plan: slot 0 irreducible A.m(I)V 4 7')
    rows.plan(graphs, slots_of(['all', 'r']), wanted='plan: slot 0 recursion A.r()V')
    rows.plan(graphs, slots_of(['dead']), wanted='plan: slot 0 recursion A.r()V')
    rows.plan(graphs, slots_of(['deadloop']), wanted='plan: slot 0 missing bound A.g()V 0')
    rows.plan(hand.towering(), slots_of('cba', MOST_LENGTH), ''.join('A.%s()V 2 loop<=%d\n' % each for each in zip('abc', (5, 5, 2**32 - 1))), wanted='slot 0 A.c()V ')
    rows.plan(hand.towering(), slots_of('cba', MOST_LENGTH), ''.join('A.%s()V 2 loop<=4294967295\n' % name for name in 'abc'), wanted='plan: slot 1 too large A.b()V')
    # the executive's main within a slot makes a ring; its own loop needs no bound
    rows.plan(hand.again(), slots_of('er'), wanted='plan: slot 1 recursion A.r()V Cyclic.main([Ljava/lang/String;)V')
    rows.plan(hand.caught(), slots_of('xm'), wanted='plan: slot 1 recursion A.m()V Cyclic.main([Ljava/lang/String;)V')
    rows.plan(hand.never(), slots_of('eg', MOST_LENGTH), 'A.g()V 0 loop<=1\n', wanted='plan: late 1 bound=never length=18446744073709551615')
    rows.plan(hand.never(), slots_of('ge'), 'A.g()V 0 loop<=1\n', wanted='plan: late 0 bound=never length=100000')
    rows.plan(hand.never(), slots_of('ge'), wanted='plan: slot 0 missing bound A.g()V 0')


def texts(rows):
    """codes that are too long go before the bounds, these before the slots; `plan` asks of no memory"""
    working = hand.working()
    too_long = Timing(1, 2, 1, 1)
    rows.plan(working, slots_of('e', 1), 'x', timing=too_long, wanted='method too long ')
    rows.plan(working, slots_of('e', 1), 'x', timing=Timing(1, 2, 1, 75), wanted='method too long A.l()V blocks=2 limit=1')
    # of 64 slots the executive is too long for a small cache
    rows.plan(hand.small(), slots_of('e' * 64, 1), 'x', timing=Timing(1, 2, 1, 51), wanted='method too long Cyclic.main([Ljava/lang/String;)V blocks=2 limit=1')
    rows.plan(hand.small(), slots_of('e' * 64, 1), timing=Timing(1, 2, 1, 52), wanted='plan: late 0 ')
    rows.plan(working, slots_of('e', 1), 'x\n', wanted='bad bounds line=1')
    rows.plan(working, slots_of('e', 1), COUNTED + 'A.java:3 loop<=5\n', wanted='bad bounds line=2')
    rows.plan(working, slots_of('e', 1), COUNTED * 2, wanted='twice bound line=2')
    rows.plan(working, slots_of('t'), COUNTED + '# A.t()V 2 loop<=5\n\n' + COUNTED.replace('t', 'e'), wanted='slot 0 A.t()V ')


def streams(rows):
    good, most = files(rows)
    status, line, out = Cyclic(rows.plain, hand.small(), ONE, 1).planned(Timing(), b'')
    rows.add(rows.words(), status, line, out, **{**good, 'b': '=%d*0a' % most})
    rows.add(rows.words(), 2, 'bad bounds line=%d' % most, **{**good, 'b': '=%d*0a+78' % (most - 1)})
    for stream in ('slow', 'full', 'closed', 'gone'):
        answer = (status, line, out) if stream == 'slow' else (4, 'write fault', b'')
        rows.add(rows.words(front='>' + stream), *answer, **good)
        # no line is said of a plan, so standard error doesn't matter
        rows.add(rows.words(front='2>' + stream), 0, '', out, **good)
        rows.add(rows.words(front='>%s 2>%s' % (stream, stream)), answer[0], '' if answer[0] else line, answer[2], **good)
        refused_line = (2, 'plan: late 0 bound=%s length=1' % out.decode().split('bound=')[1].split(' ')[0]) if stream == 'slow' else (4, '')
        rows.add(rows.words(front='2>' + stream), *refused_line, **{**good, 't': table_of([Slot('A.e()V', 1)])})
    # standard input isn't read
    for source in ('closed', 'folder'):
        rows.add(rows.words(front='<' + source), status, line, out, **good)


def main():
    rows = Plans(sys.argv[1])
    usage(rows, WORDS)
    known_rows(rows)
    tables(rows)
    unlinked(rows)
    kept(rows)
    refused(rows)
    texts(rows)
    streams(rows)
    rows.written()


if __name__ == '__main__':
    main()
