#!/usr/bin/env python3
"""rows.py: writes tests/tables/headers: the loops of programs by hand, of javac and of the programs of javac in other tables, with the lines of their sources.

headers.py works them out; of rows by hand what has to be among the lines, or refuses them, is also said here. Where javac isn't here, the class files of the sources beside this file are
those that stand in the table.
"""
import os
import random
import shutil
import subprocess
import sys
import tempfile

HERE = os.path.dirname(os.path.abspath(__file__))
sys.dont_write_bytecode = True
sys.path[:0] = [HERE, os.path.join(HERE, '../bounds'), os.path.join(HERE, '../../harness')]
import analysis  # noqa: E402
import hand_headers  # noqa: E402
import hand_notes  # noqa: E402
import tables  # noqa: E402
from headers import Headers  # noqa: E402
from table import rows_of  # noqa: E402

TABLE = os.path.join(HERE, '../../tables/headers')
TOP = os.path.join(HERE, '../../..')
# Programs of javac: a title, the name of the main class, what javac is told, and the sources.
SOURCES = [
    ('javac', 'Lines', [], ['Lines.java', 'plant/Lift.java']),
    ('without_tables', 'Lines', ['-g:none'], ['Lines.java', 'plain/Plain.java']),
    ('files_alone', 'Lines', ['-g:source'], ['Lines.java']),
    ('before', 'Edited', [], ['before/Edited.java']),
    ('after', 'Edited', [], ['after/Edited.java']),
]


def compiled(title, options, sources):
    """the class files of sources"""
    if not shutil.which('javac'):
        row = next(line for _, line in rows_of(TABLE + '.headed') if line.startswith('program %s ' % title))
        return analysis.program_of(row)[2]
    with tempfile.TemporaryDirectory() as room:
        paths = [os.path.join(TOP, 'examples/controller/jop/Io.java'), *(os.path.join(HERE, each) for each in sources)]
        subprocess.run(['javac', '--release', '8', '-nowarn', '-Xlint:-options', *options, '-d', room, *paths], check=True)
        found = sorted(os.path.join(folder, name) for folder, _, names in os.walk(room) for name in names)
        return [read(path) for path in found if os.path.relpath(path, room) != 'jop/Io.class']


def read(path):
    with open(path, 'rb') as file:
        return file.read()


class Rows(analysis.ProgramRows):
    """the rows and what they want"""

    def program(self, title, main, files, reference=None):
        super().program(title, main, files, reference)
        self.known = Headers(main, files)

    def headers(self, title, notes=None, said=None):
        """a row; lines that are said have to be among those that are put, or a line that refuses the notes has to be the same"""
        parts = [] if notes is None else ['|'.join(notes)]
        self.rows.append('\t'.join(['headers', title, *parts]))
        answer = self.known.answer(analysis.text_of(parts[0]) if parts else b'')
        if isinstance(answer, str):
            assert said is None or said == answer, (title, said, answer)
            self.wanted.append('%s: %s' % (title, answer))
            return
        assert said is None or not isinstance(said, str) and set(said) <= set(answer), (title, said, answer)
        self.wanted += [title + ': put', *('  ' + line for line in answer)]


def by_hand(rows, notes):
    """the rows of hand_notes.py for a program"""
    for title, lines, said in notes:
        rows.headers(title, lines, said)


def of_javac(rows, title, main, reference):
    """a program without notes, with a note of each line, and with notes of some loops by place"""
    files = analysis.program_of(' '.join(['program', title, main, *reference]))[2]
    rows.program(title, main, files, reference)
    rows.headers('no lines')
    known, chance = rows.known, random.Random('headers ' + title)
    sites = [(known.names[m], place, known.source(m, place)) for m in known.methods for place in known.headers[m] or []]
    lines = sorted({'%s:%d' % source for _, _, source in sites if source})
    places = ['%s %d' % (name, place) for name, place, _ in sites]
    if lines:
        rows.headers('each line', ['%s loop<=%d' % (line, chance.randrange(20)) for line in lines])
    if places:
        rows.headers('lines and places', ['%s loop<=%d' % (each, chance.randrange(2**32)) for each in [*lines, *places] if chance.random() < 0.6])


def main():
    rows = Rows()
    rows.program('hand', 'T', hand_headers.program())
    by_hand(rows, hand_notes.HAND)
    for title, main_class, options, sources in SOURCES:
        rows.program(title, main_class, compiled(title, options, sources))
        by_hand(rows, hand_notes.JAVAC[title])
    for title, main_class, reference in tables.javac_programs():
        of_javac(rows, title, main_class, reference)
    for ending, lines in (('headed', rows.rows), ('wanted', rows.wanted)):
        with open('%s.%s' % (TABLE, ending), 'w', encoding='utf-8') as file:
            file.write(''.join(line + '\n' for line in lines))


if __name__ == '__main__':
    main()
