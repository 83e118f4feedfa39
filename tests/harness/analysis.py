"""Kinds of tables whose cases are an image and what is asked of its methods: whether certificates hold, and bounds.

The first row of a case is `program`, a title, the name of the class whose main is run, and class files: in hexadecimal digits, or `of`, a table and words with which a row
of it begins that has them. The parts of the other rows stand between tabs; in a text `|` stands for a line feed.
"""
import os

from class_files import told
from kind import Kind, files_of, sum_of
from table import rows_of

HERE = os.path.dirname(os.path.abspath(__file__))
TABLES = os.path.join(HERE, '../tables')
MARK = 'cafebabe'


def program_of(row):
    """the title, the name of the main class and the class files of a row"""
    _, title, main, *words = row.split(' ')
    if words[0] == 'of':
        front = ' '.join(words[2:]) + ' '
        found = next(line for _, line in rows_of(os.path.join(TABLES, words[1])) if line.startswith(front))
        words = [each.split('=')[-1] for each in found.split(' ')]
    return title, main, files_of([each for each in words if each.startswith(MARK)])


def program_row(title, main, files, reference=None):
    """the first row of a case, with the class files or, in their place, words that refer to a row that has them"""
    return ' '.join(['program', title, main, *(reference or [data.hex() for data in files])])


class ProgramRows:
    """the rows of programs and of what is asked of them, what is wanted, and how often each answer comes"""

    def __init__(self):
        self.rows, self.wanted, self.count = [], [], {}

    def program(self, title, main, files, reference=None):
        """begins the rows of a program; its files stand in a row of another table, if that is said"""
        self.rows.append(program_row(title, main, files, reference))
        self.wanted.append(title + ': linked')
        assert program_of(self.rows[-1]) == (title, main, files)


def text_of(part):
    """the bytes of a text, each line with its end"""
    return ''.join(line + '\n' for line in part.split('|')).encode() if part else b''


class Asked(Kind):
    """the line that each row's command prints"""

    def begins(self, row):
        return row.startswith('program ')

    def title(self, row):
        return row.split(' ')[1]

    def answer(self, caller, rows):
        title, main, files = program_of(rows[0])
        linked = caller.link(main, files)
        yield '%s: %s' % (title, 'linked' if linked.status == 0 else told(linked))
        caller.put('image', linked.out)
        for row in rows[1:]:
            yield from self.answered(caller, *row.split('\t'))

    def answered(self, caller, word, title, *parts):
        yield '%s: %s' % (title, self.asked(caller, word, *parts))


class Checked(Asked):
    """what `check` says: rows are `check`, a title, options, bounds and a certificate; or `change`, a title, and changes of the lines of the last whole one"""

    def asked(self, caller, word, *parts):
        if word == 'change':
            return checked(caller, changed(caller.lines, parts))
        options, bounds, text = parts
        caller.put('bounds', text_of(bounds))
        caller.options, caller.lines = options.split(), text.split('|')
        return checked(caller, caller.lines)


def changed(lines, changes):
    """lines with changes, one after another: `N=LINE` in place of line N, `N+LINE` in front of it, or `N-`, without it"""
    lines = list(lines)
    for change in changes:
        digits = len(change) - len(change.lstrip('0123456789'))
        place, way, line = int(change[:digits]) - 1, change[digits], change[digits + 1:]
        lines[place:place + (way != '+')] = [] if way == '-' else [line]
    return lines


def checked(caller, lines):
    """the line of `check`"""
    caller.put('certificate', text_of('|'.join(lines)))
    return held(caller.call(['check', *caller.options, 'image', 'bounds', 'certificate']))


def held(answer):
    """the line of a certificate that holds, or why it doesn't"""
    line = answer.line()
    return line if answer.status == 0 and line.startswith('holds ') and not answer.out else told(answer)


class Listed(Asked):
    """the lines that each row's command puts"""

    def answered(self, caller, word, title, *parts):
        yield from self.lines_of(title, self.asked(caller, *parts))

    def lines_of(self, title, answer):
        if answer.status != 0 or answer.err:
            yield '%s: %s' % (title, told(answer))
            return
        *lines, end = answer.out.decode('utf-8', 'replace').split('\n')
        yield '%s: %s' % (title, 'put' if end == '' else 'no line feed at the end')
        yield from ('  ' + line for line in self.shown(lines))

    def shown(self, lines):
        """what is wanted of the lines"""
        return lines


class Headed(Listed):
    """what `headers` puts: rows are `program`; then `headers`, a title and, where lines are handed in, these"""

    def asked(self, caller, *lines):
        for text in lines:
            caller.put('lines', text_of(text))
        return caller.call(['headers', 'image', *('lines' for _ in lines)])


# How the names of the classes begin that the machine brings.
BROUGHT = ('java/', 'jop/')


def folded(lines):
    """lines of methods, in which those in front that are of classes of the machine's are told by their number and their sum"""
    count = next((place for place, line in enumerate(lines) if not line.startswith(BROUGHT)), len(lines))
    brought = ''.join(line + '\n' for line in lines[:count]).encode()
    return ['%d lines of the machine, sum %08x' % (count, sum_of(brought)), *lines[count:]]


class AllBounded(Listed):
    """what `bound --all` puts: rows are `program`; then `all`, a title, options and bounds"""

    def shown(self, lines):
        return folded(lines)

    def asked(self, caller, options, bounds):
        caller.put('bounds', text_of(bounds))
        return caller.call(['bound', '--all', *options.split(), 'image', 'bounds'])


def by_block_words(lines):
    """lines of shapes, those of one size of blocks as one line with what is found for 1, 2, 4 and so on to 256 blocks; or lines that aren't of all shapes in order, as they are"""
    fronts = ['blocks=%d block-words=%d bound=' % (2 ** k, 2 ** j) for j in range(11) for k in range(9)]
    if len(lines) != len(fronts) or not all(line.startswith(front) for line, front in zip(lines, fronts)):
        return lines
    found = [line[len(front):] for line, front in zip(lines, fronts)]
    return ['block-words=%d: %s' % (2 ** j, ' '.join(found[9 * j:9 * j + 9])) for j in range(11)]


class Shaped(Listed):
    """what `bound --shapes` puts: rows are `program`; then `shapes`, a title, options, a method and bounds"""

    def shown(self, lines):
        return by_block_words(lines)

    def asked(self, caller, options, method, bounds):
        caller.put('bounds', text_of(bounds))
        return caller.call(['bound', '--shapes', *options.split(), '--method', method, 'image', 'bounds'])


class Reported(Listed):
    """what `report` puts: rows are `program`; then `report`, a title, options, a method and bounds"""

    def asked(self, caller, options, method, bounds):
        caller.put('bounds', text_of(bounds))
        return caller.call(['report', *options.split(), '--method', method, 'image', 'bounds'])


class Counted(Asked):
    """what `loops` says, and where `loops --further` says more or no longer the same: a row is `program`"""

    def answer(self, caller, rows):
        title, main, files = program_of(rows[0])
        linked = caller.link(main, files)
        caller.put('image', linked.out)
        yield '%s: %s' % (title, 'linked' if linked.status == 0 else told(linked))
        plain, further = self.lines(caller, []), self.lines(caller, ['--further'])
        yield from counted_lines(plain, further)

    def lines(self, caller, options):
        answer = caller.call(['loops', *options, 'image'])
        return answer.out.decode('utf-8', 'replace').splitlines() if answer.status == 0 and not answer.err else [told(answer)]


def counted_lines(plain, further):
    """the lines of loops that count by constants, those that count further, and those that are no longer so"""
    yield from ('  ' + line for line in plain)
    yield from ('  further ' + line for line in further if line not in plain)
    yield from ('  no longer ' + line for line in plain if line not in further)


class Needed(Asked):
    """what `memory` says: rows are `program`; then `memory`, a title, bounds and lengths"""

    def asked(self, caller, word, bounds, lengths):
        caller.put('bounds', text_of(bounds))
        caller.put('lengths', text_of(lengths))
        answer = caller.call(['memory', 'image', 'bounds', 'lengths'])
        return told(answer) if answer.status != 0 or answer.err else answer.out.decode('utf-8', 'replace').rstrip('\n')


def lowered(lines):
    """some lines of a certificate with a number that has no slack lowered by one: the last line, the first node of the last section, and the first and the last loop"""
    loops = [place for place, line in enumerate(lines) if line.split(' ')[0] in ('loop', 'region') and line.split(' ')[2] != '0']
    sections = [place for place, line in enumerate(lines) if line.startswith('section ')]
    chosen = {*loops[:1], *loops[-1:]}
    if lines[-1] != 'bound never':
        chosen |= {sections[-1] + 1, len(lines) - 1}
    for place in sorted(chosen):
        words = lines[place].split(' ')
        at = min(2, len(words) - 1)
        yield '%d=%s' % (place + 1, ' '.join([*words[:at], str(int(words[at]) - 1), *words[at + 1:]]))


class Bounded(Asked):
    """what `bound` says: rows are `bound`, a title, options, a method and bounds; its certificate has to hold, and none with a number lowered by one"""

    def asked(self, caller, word, options, method, bounds):
        options, bounds = options.split(), text_of(bounds)
        caller.put('bounds', bounds)
        answer = caller.call(['bound', *options, '--method', method, 'image', 'bounds'])
        if answer.status != 0 or answer.err:
            return told(answer)
        caller.put('certificate', answer.out)
        lines = answer.out.decode('utf-8', 'replace').split('\n')
        found = held(caller.call(['check', *options, 'image', 'bounds', 'certificate']))
        caller.options = options
        wrong = ['%s %s' % (change, line) for change in lowered(lines[:-1]) for line in [checked(caller, changed(lines[:-1], [change]))] if line.startswith('holds ')]
        return ', '.join([lines[0], lines[-2] if len(lines) > 1 else '', found, *wrong])
