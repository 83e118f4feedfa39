#!/usr/bin/env python3
"""rows.py: writes tests/tables/loops: the counted loops of small methods by hand and of javac, and of the programs of javac in other tables.

counted.py and further.py work them out; those of hand_loops.py, Loops.java and Further.java are also said there, and have to be the same. Where javac isn't
here, the class files of these two are those that stand in the table. `rows.py --tell` says how many of the loops of javac's programs count, and writes
nothing.
"""
import os
import re
import shutil
import subprocess
import sys
import tempfile

HERE = os.path.dirname(os.path.abspath(__file__))
sys.dont_write_bytecode = True
sys.path[:0] = [HERE, os.path.join(HERE, '../bounds'), os.path.join(HERE, '../../harness')]
import analysis  # noqa: E402
import counted  # noqa: E402
import flow  # noqa: E402
import further  # noqa: E402
import hand_loops  # noqa: E402
import tables  # noqa: E402
from table import rows_of  # noqa: E402

TABLE = os.path.join(HERE, '../../tables/loops')
TOP = os.path.join(HERE, '../../..')
SAID = re.compile(r'^ *(?:static )?\w+ (\w+)\([^)]*\) \{.*\} // (.*)$', re.M)


def compiled(title, source):
    """the class files of a source, whose row has this title"""
    if not shutil.which('javac'):
        row = next(line for _, line in rows_of(TABLE + '.counted') if line.startswith('program %s ' % title))
        return analysis.program_of(row)[2]
    with tempfile.TemporaryDirectory() as room:
        words = ['javac', '--release', '8', '-nowarn', '-Xlint:-options', '-g:none', '-d', room, os.path.join(TOP, 'examples/controller/jop/Io.java'), os.path.join(HERE, source)]
        subprocess.run(words, check=True)
        names = sorted(name for name in os.listdir(room) if name.endswith('.class'))
        return [read(os.path.join(room, name)) for name in names]


def read(path):
    with open(path, 'rb') as file:
        return file.read()


def bounds_of(program):
    """the bounds that are found, by method and header"""
    found = {}
    for line in program.found():
        name, place, bound = line.rsplit(' ', 2)
        found.setdefault(name, {})[int(place)] = int(bound.removeprefix('loop<='))
    return found


def of_method(program, found, name):
    """the bounds of the loops of a method in the order of their headers, none where one doesn't count"""
    loops = flow.Graph(program.body(program.names.index(name))).loops()
    return [found.get(name, {}).get(place) for place, _ in sorted(loops or ())]


def by_hand(program):
    """compares what is found in hand_loops.py's class with what is said there"""
    found = bounds_of(program)
    for number, (what, _, _, wanted) in enumerate(hand_loops.LOOPS):
        came = of_method(program, found, 'H.l%d%s' % (number, hand_loops.LOCALS))
        assert came == wanted, (what, wanted, came)


def by_javac(program, source):
    """compares what is found in a source with what is said there"""
    found = bounds_of(program)
    with open(os.path.join(HERE, source), encoding='utf-8') as file:
        said = SAID.findall(file.read())
    for method, wanted in said:
        name, = (each for each in program.names if re.match(r'%s(\$\w+)?\.%s\(' % (source.removesuffix('.java'), method), each))
        came = of_method(program, found, name)
        assert came == [None if word == 'none' else int(word) for word in wanted.split()], (name, wanted, came)


class Rows(analysis.ProgramRows):
    """the rows and what they want"""

    def __init__(self):
        super().__init__()
        self.count = [0, 0, 0]

    def program(self, title, main, files, reference=None):
        """a row; its program by constants, and with what is known further"""
        super().program(title, main, files, reference)
        programs = counted.Program(main, files), further.Program(main, files)
        plain, more = (list(program.found()) for program in programs)
        self.wanted += analysis.counted_lines(plain, more)
        own = [m for m in range(len(programs[0].coded)) if programs[0].is_own(m)]
        self.count[0] += len(plain)
        self.count[1] += len(more)
        self.count[2] += sum(len(flow.Graph(programs[0].body(m)).loops() or ()) for m in own)
        return programs


def main():
    rows = Rows()
    by_hand(rows.program('hand', 'H', hand_loops.hand())[0])
    by_javac(rows.program('javac', 'Loops', compiled('javac', 'Loops.java'))[0], 'Loops.java')
    by_javac(rows.program('further', 'Further', compiled('further', 'Further.java'))[1], 'Further.java')
    rows.count = [0, 0, 0]
    for title, main_class, reference in tables.javac_programs():
        rows.program(title, main_class, analysis.program_of(' '.join(['program', title, main_class, *reference]))[2], reference)
    print('javac: %d, further %d of %d loops' % tuple(rows.count))
    if '--tell' not in sys.argv:
        with open(TABLE + '.counted', 'w', encoding='utf-8') as file:
            file.write(''.join(row + '\n' for row in rows.rows))
        with open(TABLE + '.wanted', 'w', encoding='utf-8') as file:
            file.write(''.join(line + '\n' for line in rows.wanted))


if __name__ == '__main__':
    main()
