#!/usr/bin/env python3
"""rows.py: writes tests/tables/memory: how many words programs need, by hand, of the programs of javac in other tables and of made programs, and what refuses them.

need.py works them out; those of hand_needs.py are also said there, and have to be the same.
"""
import os
import random
import sys

HERE = os.path.dirname(os.path.abspath(__file__))
sys.dont_write_bytecode = True
sys.path[:0] = [HERE, os.path.join(HERE, '../bounds'), os.path.join(HERE, '../loops'), os.path.join(HERE, '../../harness')]
import analysis  # noqa: E402
import counted  # noqa: E402
import hand_needs  # noqa: E402
import made_needs  # noqa: E402
import tables  # noqa: E402
from need import Need, line_of  # noqa: E402

TABLE = os.path.join(HERE, '../../tables/memory')


class Rows(analysis.ProgramRows):
    """the rows and what they want"""

    def program(self, title, main, files, reference=None):
        super().program(title, main, files, reference)
        self.asked = main, files

    def memory(self, title, bounds, sizes, said=None):
        """a row; what is said, or the last words of it, has to be worked out too"""
        self.rows.append('\t'.join(['memory', title, '|'.join(bounds), '|'.join(sizes)]))
        line = line_of(*self.asked, *(analysis.text_of('|'.join(part)) for part in (bounds, sizes)))
        assert said is None or line == said or set(said.split()) <= set(line.split()), (title, said, line)
        self.wanted.append('%s: %s' % (title, line))


def by_hand(rows):
    for number, (title, methods, main, bounds, sizes, said) in enumerate(hand_needs.ROWS):
        rows.program('hand%d' % number, 'M', hand_needs.program(methods, main))
        rows.memory(title, bounds, sizes, said)


def lines_for(main, files, chance):
    """lines for each loop that makes objects, and for each array of no constant length, within what runs"""
    need, bounds, sizes = Need(counted.Program(main, files), {}, {}), [], []
    for m in need.region:
        name = need.program.names[m]
        bounds += ['%s %d loop<=%d' % (name, place, chance.randint(0, 5)) for place, _ in (need.making_loops(m) if need.graph[m].loops() else [])]
        sizes += ['%s %d length<=%d' % (name, place, chance.randint(0, 9)) for place, is_raise in need.graph[m].nodes
                  if not is_raise and need.code[m].op[place] in (188, 189) and need.length(m, place) is None]
    return bounds, sizes


def of_program(rows, title, main, files, reference, seed):
    """rows of a program: with all lines that it wants, without bounds, and with the last length left out; none where several rings of calls may be told"""
    need = Need(counted.Program(main, files), {}, {})
    if need.program.cycles(need.boot) == 'several':
        return
    rows.program(title, main, files, reference)
    bounds, sizes = lines_for(main, files, random.Random(seed))
    rows.memory('all lines', bounds, sizes)
    if bounds:
        rows.memory('no bounds', [], sizes)
    if sizes:
        rows.memory('a length left out', bounds, sizes[:-1])


def main():
    rows = Rows()
    by_hand(rows)
    for title, main_class, reference in tables.javac_programs():
        files = analysis.program_of(' '.join(['program', title, main_class, *reference]))[2]
        of_program(rows, title, main_class, files, reference, title)
    for seed in range(made_needs.FIRST, made_needs.FIRST + 12):
        of_program(rows, 'made%d' % seed, 'A', made_needs.program(random.Random(seed)), None, seed)
    for ending, lines in (('needed', rows.rows), ('wanted', rows.wanted)):
        with open('%s.%s' % (TABLE, ending), 'w', encoding='utf-8') as file:
            file.write(''.join(line + '\n' for line in lines))


if __name__ == '__main__':
    main()
