"""Tables of certificates and of bounds: their rows, with what has to be said of each; and the programs of javac in other tables."""
import os
import sys

HERE = os.path.dirname(os.path.abspath(__file__))
sys.path[:0] = [HERE, os.path.join(HERE, '../graphs'), os.path.join(HERE, '../../harness')]
import analysis  # noqa: E402
import flow  # noqa: E402
from certificate import answer  # noqa: E402
from costs import Timing  # noqa: E402
from study import Study, read_bounds  # noqa: E402

TABLES = os.path.join(HERE, '../../tables')
MAIN = '.main([Ljava/lang/String;)V'
SMALL = Timing(3, 7, 4, 16)
# The made programs, by the numbers of which they are made.
FIRST, MADE = 100, 24


class Checks(analysis.ProgramRows):
    """rows of certificates of programs, with what is said of them"""

    def program(self, title, main, files, reference=None):
        super().program(title, main, files, reference)
        self.known = flow.Program(main, files)
        self.base = None

    def says(self, title, line, expected):
        assert expected is None or line == expected, (title, line, expected)
        self.wanted.append('%s: %s' % (title, line))
        self.count[word_of(line)] = self.count.get(word_of(line), 0) + 1

    def check(self, title, timing, bounds, text, expected=None):
        """a certificate, as a text"""
        lines = text.rstrip('\n').split('\n')
        self.base = timing, bounds, lines
        self.rows.append('\t'.join(['check', title, ' '.join(timing.options()), '|'.join(bounds), '|'.join(lines)]))
        self.says(title, self.line(timing, bounds, lines), expected)

    def change(self, title, changes, expected=None):
        """the last whole one with changes"""
        timing, bounds, lines = self.base
        self.rows.append('\t'.join(['change', title, *changes]))
        self.says(title, self.line(timing, bounds, analysis.changed(lines, changes)), expected)

    def line(self, timing, bounds, lines):
        return answer(self.known, timing, analysis.text_of('|'.join(bounds)), '\n'.join(lines) + '\n')

    # ---- changes of the last whole certificate, by what a line says

    def place(self, line, behind=None):
        """the number of a line, the first one behind another"""
        lines = self.base[2]
        return lines.index(line, lines.index(behind) if behind else 0) + 1

    def put(self, title, line, other, expected, behind=None):
        self.change(title, ['%d=%s' % (self.place(line, behind), other)], expected)

    def without(self, title, lines, expected):
        self.change(title, ['%d-' % self.place(each) for each in sorted(lines, key=self.place, reverse=True)], expected)

    def before(self, title, line, other, expected):
        self.change(title, ['%d+%s' % (self.place(line), other)], expected)


def word_of(line):
    """the kind of a line"""
    words = line.split(' ')
    if words[0] == 'holds':
        return 'holds never' if words[-1] == 'never' else 'holds'
    return ' '.join(words[:2]) + (' #' if words[0] == 'check:' and words[2].startswith('#') else '')


class Bounds(analysis.ProgramRows):
    """rows of bounds of methods, with what is printed"""

    def program(self, title, main, files, reference=None):
        super().program(title, main, files, reference)
        self.known = flow.Program(main, files)

    def bound(self, title, timing, method, lines, expected=None):
        """the bound of a method"""
        self.rows.append('\t'.join(['bound', title, ' '.join(timing.options()), method, '|'.join(lines)]))
        line = self.line(timing, method, lines)
        assert expected is None or line == expected, (title, line, expected)
        self.wanted.append('%s: %s' % (title, line))
        word = ' '.join(line.split(' ')[:2]) if line.startswith('bound:') else 'never' if line.endswith('never') else line.split(' ')[0]
        self.count[word] = self.count.get(word, 0) + 1

    def line(self, timing, method, lines):
        too_long = Study(self.known, timing, {}).too_long()
        if too_long is not None:
            return 'method too long %s blocks=%d limit=%d' % (self.known.names[too_long[0]], too_long[1], timing.blocks)
        bounds = read_bounds(analysis.text_of('|'.join(lines)))
        if isinstance(bounds, str):
            return bounds
        study = Study(self.known, timing, bounds)
        cause = study.cause(method)
        if cause is not None:
            return 'bound: ' + cause
        printed = study.printed(study.root(method))
        printed = 'never' if printed is None else str(printed)
        return 'JOPC 2, bound %s, holds %s %s' % (printed, method, printed)


class AllBounds(analysis.ProgramRows):
    """rows of the bounds of all methods, with the lines that are put"""

    def program(self, title, main, files, reference=None):
        super().program(title, main, files, reference)
        self.known = flow.Program(main, files)

    def all(self, title, timing, lines, said=()):
        """the bounds of all methods; lines that are said have to be among them, or a line that is said has to be the one that refuses"""
        self.rows.append('\t'.join(['all', title, ' '.join(timing.options()), '|'.join(lines)]))
        answer = all_bounds(self.known, timing, analysis.text_of('|'.join(lines)))
        if isinstance(answer, str):
            assert said in ((), answer), (title, said, answer)
            self.wanted.append('%s: %s' % (title, answer))
            return
        assert not isinstance(said, str) and set(said) <= set(answer), (title, said, answer)
        self.wanted += ['%s: put' % title, *('  ' + line for line in analysis.folded(answer))]
        for line in answer:
            word = ' '.join(line.rsplit(' bound=', 1)[1].split(' ')[:2])
            word = 'a number' if word.isdigit() else word
            self.count[word] = self.count.get(word, 0) + 1


def all_bounds(program, timing, text):
    """the lines of `bound --all`, or what refuses the bounds"""
    too_long = Study(program, timing, {}).too_long()
    if too_long is not None:
        return 'method too long %s blocks=%d limit=%d' % (program.names[too_long[0]], too_long[1], timing.blocks)
    bounds = read_bounds(text)
    if isinstance(bounds, str):
        return bounds
    study, boot = Study(program, timing, bounds), len(program.classes) - 1
    return [bound_line(study, m) for m in range(len(program.coded)) if program.coded[m][0] != boot]


def bound_line(study, m):
    """the line of a method: its number, `never`, or the cause with the method and the place, but without the ring and the nodes"""
    name, cause = study.program.names[m], study.cause_of(m)
    if cause is None:
        value = study.printed(m)
        return '%s bound=%s' % (name, 'never' if value is None else value)
    if cause.startswith('recursion'):
        cause = 'recursion'
    elif cause.startswith('irreducible'):
        cause = 'irreducible ' + next(study.program.names[t] for t in study.region(m) if study.graph(t).loops() is None)
    return '%s bound=none %s' % (name, cause)


def number(table, name):
    return table.known.names.index(name)


def greatest_load(table, timing=Timing()):
    return Study(table.known, timing, {}).greatest_load()


# ---- programs, and bounds of their loops


def javac_programs():
    """titles, main classes, files and where these stand in another table"""
    seen = set()
    for line in open(os.path.join(TABLES, 'programs.calls')):
        words = line.split()
        if words[:2] == ['link', '--main'] and words[2] not in ('A', 'B', 'app/Main', 'app.Main') and words[2] not in seen:
            seen.add(words[2])
            yield words[2], words[2], ['of', 'programs.calls', 'link', '--main', words[2]]
    for line in open(os.path.join(TABLES, 'rules.verified')):
        if line.startswith('javac_'):
            title, main, *_ = line.split()
            yield title, main, ['of', 'rules.verified', title]
    for line in open(os.path.join(TABLES, 'images.images')):
        kind, main, *_ = line.split()
        if kind == 'words':
            yield main + '_image', main, ['of', 'images.images', 'words', main]


def bounds_of(program, chance, least=0, most=5):
    """a line for each loop of each method, and what they say"""
    lines = {}
    for m, name in enumerate(program.names):
        for place, _ in flow.Graph(program.body(m)).loops() or {}:
            lines[name, place] = chance.randint(least, most)
    return lines


def lines_of(bounds, names=None):
    return ['%s %d loop<=%d' % (name, place, n) for (name, place), n in sorted(bounds.items()) if names is None or name in names]


def region_bounds(study, root):
    """the lines of the loops of the methods of a root"""
    names = {study.program.names[m] for m in study.region(root)}
    return lines_of(study.bounds, names)


def roots_of(study):
    """the main method, or where it has no bound the one with the largest region among those that have one"""
    own = [m for m in range(len(study.program.coded)) if study.program.is_own(m) and study.cause(study.program.names[m]) is None]
    return sorted(own, key=lambda m: (-len(study.region(m)), m))[:1]
