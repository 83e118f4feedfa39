#!/usr/bin/env python3
"""rows.py: writes tests/tables/reports and report: the reports on methods by hand and of javac; and words, files, texts and streams of `report`.

reports.py works them out; of rows by hand lines are also said in hand_reports.py, and have to be among those. Of several greatest walks no row speaks: which one is told is free.
"""
import json
import os
import random
import sys

HERE = os.path.dirname(os.path.abspath(__file__))
sys.dont_write_bytecode = True
sys.path[:0] = [HERE, os.path.join(HERE, '../bounds'), os.path.join(HERE, '../graphs'), os.path.join(HERE, '../../harness')]
import analysis  # noqa: E402
import flow  # noqa: E402
import hand_reports as hand  # noqa: E402
import programs  # noqa: E402
import tables  # noqa: E402
from all_rows import MOST, large  # noqa: E402
from call_rows import BARE, LIMIT, LONG_BARE, Calls  # noqa: E402
from calls import out_text  # noqa: E402
from costs import Timing  # noqa: E402
from reports import Reports, answer  # noqa: E402
from study import Study  # noqa: E402

LINES = ('lines_of_javac', 'Lines', ['of', 'headers.headed', 'program', 'javac'])


class Rows(analysis.ProgramRows):
    """the rows and what they want"""

    def program(self, title, main, files, reference=None):
        super().program(title, main, files, reference)
        self.files, self.known = files, flow.Program(main, files)

    def report(self, title, method, lines=(), waits=(1, 2), options=(16, 64), said=()):
        """a row; `options` are the blocks of the cache and their words; a line that is said has to be the one that refuses, lines that are said have to be among those that are put"""
        timing = Timing(*waits, *options)
        self.rows.append('\t'.join(['report', title, ' '.join(timing.options()), method, '|'.join(lines)]))
        found, sole = answer(self.known, self.files, timing, analysis.text_of('|'.join(lines)), method)
        assert sole, (title, 'several greatest walks')
        if isinstance(found, str):
            assert said in ((), found), (title, said, found)
            self.wanted.append('%s: %s' % (title, found))
            return
        assert not isinstance(said, str) and set(said) <= set(found), (title, [each for each in said if each not in found], found)
        self.wanted += ['%s: put' % title, *('  ' + each for each in found)]
        self.count[title.split(',')[0]] = self.count.get(title.split(',')[0], 0) + len(found)


def of_javac(rows, title, main, reference, most=2):
    """the methods of a program of javac with most parts of its own, with bounds of all loops, of which there is one report"""
    files = analysis.program_of(' '.join(['program', title, main, *reference]))[2]
    rows.program(title, main, files, reference)
    chance = random.Random('reports ' + title)
    for timing in (Timing(), chance.choice([tables.SMALL, Timing(0, 63, 6, 16), Timing(3, 7)])):
        study = Study(rows.known, timing, tables.bounds_of(rows.known, chance, 0, 12))
        if study.too_long() is not None:
            continue
        own = [m for m in range(len(rows.known.coded)) if rows.known.is_own(m) and study.root(rows.known.names[m]) == m and study.cause_of(m) is None]
        found = [(len(lines), m) for m in own for lines, sole in [Reports(study, files).report(m)] if sole]
        for _, m in sorted(found, reverse=True)[:most]:
            rows.report('of javac, ' + rows.known.names[m], rows.known.names[m], tables.region_bounds(study, m), (timing.read, timing.write), (timing.blocks, timing.block_words))


def calls():
    """words, files, images and texts, each refusal in front of the later ones; two whole reports, and streams"""
    table, call = Calls(), 'report --method A.e()V i b'
    for words, place in (('report', 1), ('report i', 1), ('report i b', 1), ('report %', 1), ('report --method', 2), ('report --method %', 2), ('report --method A.e()V', 3),
                         ('report --method A.e()V i', 4), ('report --method A.e()V i %', 4), ('report --method A.e()V % b', 3), ('report --method % i b', 2), ('report --method A.e()V i b c', 5),
                         ('report --method A.e()V --method A.e()V i b', 3), ('report --method A.e()V i b --read 1', 5), ('report --all i b', 1), ('report --method A.e()V --all i b', 3),
                         ('report --shapes --method A.e()V i b', 1), ('report --method A.e()V --shapes i b', 3), ('report --blocks', 2), ('report --blocks 8', 3), ('report --blocks 8 i b', 3),
                         ('report --blocks 0 --method A.e()V i b', 2), ('report --blocks 257 --method A.e()V i b', 2), ('report --block-words 0 --method A.e()V i b', 2),
                         ('report --block-words 1025 --method A.e()V i b', 2), ('report --read 64 --method A.e()V i b', 2), ('report --write 64 --method A.e()V i b', 2),
                         ('report --write 01 --method A.e()V i b', 2), ('report --method A.e()V --read 1 --read 1 i b', 5), ('report --stack 256 --method A.e()V i b', 1),
                         ('report --memory 16 --method A.e()V i b', 1), ('report --cycles 5 --method A.e()V i b', 1), ('report --micro --method A.e()V i b', 1), ('report --main A i b', 1),
                         ('report --lines --method A.e()V i b', 1), ('reports --method A.e()V i b', 0), ('repor --method A.e()V i b', 0), ('--method A.e()V report i b', 0)):
        table.add(words, 2, 'usage: word %d' % place)
    table.add(call, 4, 'read fault')
    table.add(call, 4, 'read fault', i=BARE)
    table.add(call, 4, 'read fault', b='x')
    table.add(call, 4, 'read fault', i='=folder', b='x')
    table.add(call, 4, 'read fault', i=BARE, b='=pipe')
    table.add(call, 2, 'too big i sum=%d' % (LIMIT + 1), i='=%d*00' % (LIMIT + 1), b='x')
    table.add(call, 2, 'too big b sum=%d' % (LIMIT + 1), i=BARE, b='=%d*0a' % (LIMIT + 1 - len(BARE)))
    table.add(call, 2, 'bound: no method', i=BARE, b='=%d*0a' % (LIMIT - len(BARE)))
    table.add(call, 2, 'bad image', i=BARE + b'\0', b='x')
    table.add(call, 2, 'bad image', i=b'', b='x')
    # a bare image has no method with a name
    table.add(call.replace('report', 'report --blocks 1'), 2, 'method too long boot blocks=2 limit=1', i=LONG_BARE, b='x')
    table.add(call, 2, 'bad bounds line=1', i=LONG_BARE, b='x')
    table.add(call, 2, 'bad bounds line=1', i=BARE, b='x')
    table.add(call, 2, 'twice bound line=2', i=BARE, b='A 1 loop<=1\nA 1 loop<=1\n')
    table.add(call, 2, 'bound: no method', i=BARE, b='')
    table.add('report --method boot i b', 2, 'bound: no method', i=BARE, b='')
    of_linked(table, call)
    too_large(table)
    return table.rows, table.wanted


def whole(table, words, timing, program, data, bounds, stream=''):
    """a report that is put"""
    method = words.split(' ')[words.split(' ').index('--method') + 1]
    lines, sole = answer(program, [data], timing, bounds.encode(), method)
    assert sole and not isinstance(lines, str)
    text = ''.join(line + '\n' for line in lines).encode()
    table.add(stream + words, 0, '', i='=@', b=bounds)
    table.wanted[-2:] = ['%s -> 0, out %s' % (words + (' ' + stream.strip() if stream else ''), out_text(text)), '  ""']


def of_linked(table, call):
    data = programs.worked()
    program = flow.Program('A', [data])
    table.link(program, data)
    whole(table, call, Timing(), program, data, '')
    whole(table, call.replace('A.e', 'A.g'), Timing(), program, data, 'A.g()V 0 loop<=5\n')
    whole(table, call, Timing(), program, data, '', '>slow ')
    whole(table, 'report --write 0 --method A.b()V --block-words 1 --read 63 --blocks 40 i b', Timing(63, 0, 40, 1), program, data, 'A.k()V 2 loop<=10\n')
    table.add(call, 2, 'bad bounds line=1', i='=@', b='x')
    table.add(call.replace('A.e', 'A.x'), 2, 'bad bounds line=1', i='=@', b='x')
    table.add(call.replace('A.e()V', 'A.e'), 2, 'bound: no method', i='=@', b='')
    table.add(call.replace('A.e()V', 'A.e()'), 2, 'bound: no method', i='=@', b='')
    table.add(call.replace('A.e()V', 'jop/Boot.boot()V'), 2, 'bound: no method', i='=@', b='')
    table.add(call.replace('A.e', 'A.n'), 2, 'bound: missing bound A.n()V 2', i='=@', b='')
    for stream in ('full', 'closed', 'gone'):
        table.add('>%s %s' % (stream, call), 4, 'write fault', i='=@', b='')
        table.wanted[-2] = '%s >%s -> 4, out .' % (call, stream)


def too_large(table):
    """a number that passes 64 bits, and the same with fewer turns"""
    data = large()
    program = flow.Program('A', [data])
    table.link(program, data)
    call = 'report --method A.n(I)V i b'
    bounds = 'A.n(I)V 0 loop<=%d\nA.n(I)V 4 loop<=%d\n'
    table.add(call, 2, 'bound: too large A.n(I)V', i='=@', b=bounds % (MOST, MOST))
    whole(table, call, Timing(), program, data, bounds % (MOST, 3))


def main():
    rows = Rows()
    for make in (hand.of_lines, hand.without_lines, hand.regions):
        make(rows)
    for title, main_class, reference in [LINES, *tables.javac_programs()]:
        of_javac(rows, title, main_class, reference)
    for name, kind, (lines, wanted) in (('reports', 'reported', (rows.rows, rows.wanted)), ('report', 'calls', calls())):
        for ending, each in ((kind, lines), ('wanted', wanted)):
            with open(os.path.join(tables.TABLES, '%s.%s' % (name, ending)), 'w', encoding='utf-8') as file:
                file.write(''.join(line + '\n' for line in each))
    print(len(rows.wanted), sum(rows.count.values()), rows.count['of javac'])


if __name__ == '__main__':
    main()
