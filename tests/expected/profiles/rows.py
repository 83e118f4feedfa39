#!/usr/bin/env python3
"""rows.py PLAIN: writes tests/tables/profiles, the profiles of runs of programs by hand and of javac, and prints how many lines have each kind of bound.

PLAIN is the plain simulator, ../plain.c, compiled. What is put of programs by hand is also said here, as it was worked out by hand.
"""
import os
import sys

HERE = os.path.dirname(os.path.abspath(__file__))
sys.dont_write_bytecode = True
sys.path[:0] = [HERE, os.path.join(HERE, '../bounds'), os.path.join(HERE, '../../harness')]
import analysis  # noqa: E402
import calls  # noqa: E402
import hand_profiles as hand  # noqa: E402
import tables  # noqa: E402
from costs import Timing  # noqa: E402
from simulated import Machine, Simulated, activations, profiled  # noqa: E402
from study import Study  # noqa: E402
from table import rows_of  # noqa: E402
from traces import activations as traced, kept_bounds  # noqa: E402

TABLE = os.path.join(HERE, '../../tables/profiles')
# What a program reads that reads something else in no table; and the most words of memory that a run asks for.
INPUT = b'hello \xff\0 world'
SMALL = Machine(tables.SMALL)
# One whose cache holds each program, and one of the longest waits over small blocks.
WIDE, SLOW = Machine(Timing(0, 0, 256, 1024)), Machine(Timing(63, 63, 60, 1))


class Profiles(analysis.ProgramRows):
    """the rows and what they want"""

    def __init__(self, plain):
        super().__init__()
        self.plain = plain

    def program(self, title, main, files, reference=None):
        super().program(title, main, files, reference)
        self.known = Simulated(self.plain, main, files)

    def profile(self, title, machine=Machine(), given=b'', bounds=(), fails=None, line=None, said=()):
        """a row; the line on standard error that is said, and lines with these beginnings, have to be worked out, too"""
        text = '|'.join(bounds)
        self.rows.append('\t'.join(['profile', title, ' '.join(machine.options()), given if isinstance(given, str) else given.hex(), text]))
        given = b'' if isinstance(given, str) else given
        status, ending, put = profiled(self.known, machine, given, analysis.text_of(text), fails)
        assert line is None or ending.startswith(line), (title, line, ending)
        own = [each for each in put if not each.startswith(analysis.BROUGHT)]
        assert len(own) >= len(said) and all(any(each.startswith(front + ' ') for each in own) for front in said), (title, said, own)
        self.wanted += ['%s: %d, %s' % (title, status, ending), *('  ' + each for each in (analysis.folded(put) if put else []))]
        for each in put:
            word = each.rpartition('=')[2]
            word = 'a number' if word.isdigit() else word
            self.count[word] = self.count.get(word, 0) + 1
        return put

    def kept(self, machine, given):
        """lines of the least bounds that a run keeps; the activations of its trace are those that are found by search"""
        run = self.known.run(given, machine)
        trace = '\n'.join('%d %s %d %s frames=%d operands=0' % (here.clock, here.method, here.place, here.step, here.frames) for here in run.heres)
        found = traced(trace)
        ended = [(each.began, each.method, each.ended) for each in found if each.ended is not None]
        assert ended == [(begun.clock, method, end.clock) for begun, method, end in activations(run.heres)]
        study = Study(self.known.program, machine.timing, {})
        loops = {name: study.live(m)[1] for m, name in enumerate(self.known.program.names)}
        return tables.lines_of(kept_bounds(loops, [found]))


def keeps(put):
    """whether no greatest number passes its bound"""
    for line in put:
        greatest, bound = line.split(' greatest=')[1].split(' ')[0], line.rpartition('=')[2]
        assert bound == 'none' or bound != 'never' and int(greatest) <= int(bound), line


def by_hand(table):
    main = 'A.main([Ljava/lang/String;)V count=1'
    table.program('dividing', 'A', hand.dividing())
    table.profile('an exception leaves two frames', line='ended ', said=[main, 'A.f()V count=1', 'A.g(I)I count=1'])
    table.program('uncaught', 'A', hand.uncaught())
    table.profile('an exception leaves all frames', line='uncaught java/lang/ArithmeticException ', said=[main, 'A.e()V count=2', 'A.f()V count=1', 'A.g(I)I count=1'])
    table.program('recursion', 'A', hand.recursion())
    put = table.profile('two that call themselves', line='ended ', said=[main, 'A.e()V count=7', 'A.r(I)V count=6', 'A.b(I)V count=2', 'A.c(I)V count=1'])
    for line in put:
        name = line.split(' ')[0]
        assert name[:2] != 'A.' or line.endswith(' bound=none') == (name != 'A.e()V'), line
    table.program('again', 'A', hand.again())
    table.profile('main twice', line='ended ', said=['A.main([Ljava/lang/String;)V count=2', 'A.<clinit>()V count=1', 'A.e()V count=2'])
    table.program('within', 'A', hand.within())
    table.profile('main within main', line='ended ', said=['A.main([Ljava/lang/String;)V count=2', 'A.over()V count=1'])
    table.program('selected', 'A', hand.selected())
    for title, machine in (('usual', Machine()), ('small', SMALL)):
        put = table.profile(title, machine, line='ended ', said=[main, 'A.both(LB;)V count=3', 'B.<init>()V count=3', 'C.f()I count=4', 'D.f()I count=2'])
        keeps(put)
    table.program('overflowing', 'A', hand.overflowing())
    table.profile('until the stack is full', line='ended ', said=[main, 'A.r()V'])
    table.profile('of fewer words', Machine(stack=256), line='ended ', said=[main, 'A.r()V'])
    table.program('named', 'A', hand.named())
    table.profile('a space and a #', bounds=['# g 0 loop<=1'], line='ended ', said=[main, 'A.g\\x20g()V count=2', 'A.#g()V count=2'])


def reads_by_hand(table):
    main = 'A.main([Ljava/lang/String;)V count=1'
    table.program('reading', 'A', hand.reading())
    table.profile('a byte, and the end', given=b'x', line='ended ', said=[main, 'A.get()I count=2'])
    for way in ('closed', 'folder'):
        assert table.profile('no input, ' + way, given=way, fails=0, line='read fault') == []
    table.profile('the words of the image', Machine(memory=table.known.words))
    table.profile('a word less', Machine(memory=table.known.words - 1), bounds=['x'], line='memory too small ')
    table.profile('a code that is too long', Machine(Timing(1, 2, 1, 1), memory=16), bounds=['x'], line='method too long ')
    table.profile('bounds that are none', bounds=['A.x()V 1 loop<=1', 'x'], line='bad bounds line=2')
    table.profile('a bound twice', bounds=['A.x()V 1 loop<=1', 'A.x()V 1 loop<=1', 'x'], line='twice bound line=2')


def ends_by_hand(table):
    """a run that is spent at each boundary of its first turns, just before it and just behind it"""
    table.program('turning', 'A', hand.turning())
    heres = table.known.run(b'', Machine(cycles=4000)).heres
    assert heres[-1].method == 'A.w()V'
    bounds = ['A.t()V 2 loop<=5', 'A.w()V 0 loop<=1']
    table.profile('spent in the last', Machine(cycles=4000), bounds=bounds, line='spent ', said=['A.e()V count=10', 'A.t()V count=2'])
    table.profile('a bound that is not kept', Machine(cycles=4000), bounds=['A.t()V 2 loop<=4'], line='spent ', said=['A.e()V count=10', 'A.t()V count=2'])
    table.profile('no bounds', Machine(cycles=4000), line='spent ', said=['A.e()V count=10', 'A.t()V count=2'])
    ends = {ended.clock for _, _, ended in activations(heres)}
    for clock in sorted(ends)[:4] + sorted(ends)[-3:]:
        for cycles in (clock - 1, clock, clock + 1):
            before = next(here.clock for here in heres if here.clock >= cycles)
            table.profile('spent at %d of %d' % (before, cycles), Machine(cycles=cycles), bounds=bounds, line='spent cycles=%d ' % before)
    table.profile('no cycles', Machine(cycles=0), bounds=bounds, line='spent cycles=0 ')


def inputs():
    """what the programs of a table read, by main class"""
    found, main = {}, None
    for _, row in rows_of(os.path.join(HERE, '../../tables/programs.calls')):
        call = calls.Call(row)
        if call.command() == 'link':
            main = call.words[2] if call.words[1] == '--main' else None
        elif call.command() == 'run' and call.streams.given:
            found.setdefault(main, call.streams.given)
    return found


def of_javac(table):
    """programs of javac by the least bounds that their runs keep, on machines of three shapes; without bounds; and of half of the cycles"""
    given = inputs()
    for number, (title, main, reference) in enumerate(tables.javac_programs()):
        _, _, files = analysis.program_of(' '.join(['program', title, main, *reference]))
        table.program(title, main, files, reference)
        read = given.get(main, INPUT)
        bounds = table.kept(Machine(), read)
        keeps(table.profile('kept', Machine(), read, bounds))
        other = (SMALL, WIDE, SLOW)[number % 3]
        if Study(table.known.program, other.timing, {}).too_long() is None:
            keeps(table.profile('kept on another', other, read, bounds))
        cycles = table.known.run(read, Machine()).heres[-1].clock
        table.profile('half of it', Machine(cycles=cycles // 2), read)


def main():
    table = Profiles(sys.argv[1])
    by_hand(table)
    reads_by_hand(table)
    ends_by_hand(table)
    of_javac(table)
    for name, lines in (('.profiled', table.rows), ('.wanted', table.wanted)):
        with open(TABLE + name, 'w') as file:
            file.write(''.join(line + '\n' for line in lines))
    print(table.count)


if __name__ == '__main__':
    main()
