"""What `jop headers` answers, worked out from class files and lines by the words of docs/formats.md and docs/commands.md alone.

Loops are those of ../graphs/flow.py, the numbers that are found those of ../loops/counted.py, files and lines those of sources.py.
"""
import os
import re
import sys

HERE = os.path.dirname(os.path.abspath(__file__))
sys.path[:0] = [HERE, os.path.join(HERE, '../loops'), os.path.join(HERE, '../graphs')]
import counted  # noqa: E402
import flow  # noqa: E402
from rechecker.texts import MOST_BOUND, NUMBER, lines_of  # noqa: E402
from sources import Sources, written  # noqa: E402

OF_LINE = re.compile(b'([^ \n]+):%b loop<=%b' % (NUMBER.encode(), NUMBER.encode()))
OF_PLACE = re.compile(b'([^ \n]+) %b loop<=%b' % (NUMBER.encode(), NUMBER.encode()))


def read_notes(text):
    """the numbers by what is bounded, a separator, a name and a number; or what is said of the first line that is refused"""
    notes = {}
    for number, line in enumerate(lines_of(text), 1):
        if not line or line.startswith(b'#'):
            continue
        separator, found = ':', OF_LINE.fullmatch(line)
        if not found:
            separator, found = ' ', OF_PLACE.fullmatch(line)
        if not found or int(found[2]) > MOST_BOUND or int(found[3]) > MOST_BOUND:
            return 'bad lines line=%d' % number
        subject = separator, found[1].decode('utf-8', 'surrogateescape'), int(found[2])
        if subject in notes:
            return 'twice lines line=%d' % number
        notes[subject] = int(found[3])
    return notes


class Headers:
    """the headers of a program's loops, with their sources"""

    def __init__(self, main, files):
        self.program = counted.Program(main, files)
        self.sources = Sources(self.program, files)
        boot = len(self.program.classes) - 1
        self.methods = [m for m in range(len(self.program.coded)) if self.program.coded[m][0] != boot]
        self.names = {m: self.name_of(self.program.coded[m]) for m in self.methods}
        self.graphs = {m: flow.Graph(self.program.body(m)) for m in self.methods}
        self.headers = {m: self.headers_of(m) for m in self.methods}

    def name_of(self, method):
        """the name of a method by its class and its place there, as texts have it"""
        found = self.program.image.method(method)
        return written(self.program.classes[method[0]].name + b'.' + found['name'] + found['descriptor'])

    def headers_of(self, m):
        """the places of the headers of a method's loops, rising, or none where its graph isn't reducible"""
        loops = self.graphs[m].loops()
        return None if loops is None else [place for place, _ in sorted(loops)]

    def source(self, m, place):
        """the file and the line of an instruction, or none"""
        return self.sources.at(m, place)

    def at(self, separator):
        """what notes with this separator may be said of: names that are known, and where loops are headed; a method of several entries has no place of its own, and all its lines"""
        sites = {(m, place) for m in self.methods for place in self.headers[m] or []}
        if separator == ' ':
            return {self.names[m] for m in self.methods if self.headers[m] is not None}, {(self.names[m], place) for m, place in sites}
        several = {(m, place) for m in self.methods if self.headers[m] is None for place in range(len(self.program.body(m)['code']))}
        return self.sources.files(), {self.source(m, place) for m, place in sites | several}

    def strays(self, notes):
        """what is bounded at lines of the program's files and at places of its methods, and isn't there, in the order of the notes"""
        known = {separator: self.at(separator) for separator in ': '}
        for separator, name, number in notes:
            names, sites = known[separator]
            if name in names and (name, number) not in sites:
                yield name + separator + str(number)

    def written(self, m, place, notes, found):
        """the number that is written for a loop, or none"""
        source = self.source(m, place)
        numbers = [found.get(place), notes.get((' ', self.names[m], place)), notes.get((':', *source)) if source else None]
        return min((number for number in numbers if number is not None), default=None)

    def lines(self, notes):
        for m in self.methods:
            if self.headers[m] is None:
                yield ' '.join(['#', self.names[m], 'irreducible', *(str(place) for place, _ in self.graphs[m].reduced())])
            else:
                yield from self.method_lines(m, notes)

    def method_lines(self, m, notes):
        found = dict(counted.counted(self.program, m))
        for place in self.headers[m]:
            source, number = self.source(m, place), self.written(m, place, notes, found)
            if source:
                yield '# %s:%d' % source
            line = '%s %d loop<=' % (self.names[m], place)
            yield '# ' + line if number is None else line + str(number)

    def answer(self, text):
        """the lines that are put, or what is said of the first note that is refused"""
        notes = read_notes(text)
        if isinstance(notes, str):
            return notes
        stray = next(self.strays(notes), None)
        return list(self.lines(notes)) if stray is None else 'no loop ' + stray
