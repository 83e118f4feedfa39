"""What `check` answers: words of the command line, files, and the first thing that is wrong. Not proved: a tool."""
import os
import stat
from functools import lru_cache

from .conditions import check
from .costs import Timing
from .facts import facts_of, read_facts
from .image_words import word
from .images import BadImage, BareImage, read_image
from .names import named
from .program import Priced, Program, words_of
from .texts import read_bounds, read_certificate

LIMIT = 16777216
OPTIONS = {'--blocks': (1, 256), '--block-words': (1, 1024), '--read': (0, 63), '--write': (0, 63)}
OPERANDS = 3
HOLDS, WRONG, FAULT = 0, 2, 4


class Answered(Exception):
    """the line that is answered, and the status"""

    def __init__(self, line, status=WRONG):
        super().__init__(line)
        self.line, self.status = line, status


class NotLinked(Exception):
    """class files that aren't those of a program, for a reason that `jop link` tells"""


class Words:
    """the words of a command line, of which the command is word 0, with two or more options"""

    def __init__(self, words, own=()):
        self.values, self.own, at = {}, own, 0
        while at < len(words) and words[at].startswith('--'):
            self.take(words, at)
            at += 2
        self.first, self.operands = at + 1, words[at:]

    def take(self, words, at):
        """an option and its value; an option comes once"""
        name = words[at]
        if name not in OPTIONS and name not in self.own or name in self.values:
            raise usage(at + 1)
        if at + 1 == len(words) or not self.is_right(name, words[at + 1]):
            raise usage(at + 2)
        self.values[name] = words[at + 1]

    def is_right(self, name, value):
        if name in self.own:
            return value != ''
        first, last = OPTIONS[name]
        digits = value.isascii() and value.isdigit() and len(value) <= 4
        return digits and str(int(value)) == value and first <= int(value) <= last

    def timing(self):
        given = {name[2:].replace('-', '_'): int(value) for name, value in self.values.items() if name in OPTIONS}
        return Timing(**given)

    def require_operands(self, least, most):
        """each operand is a word that isn't empty"""
        for place, operand in enumerate(self.operands):
            if place == most or operand == '':
                raise usage(self.first + place)
        if len(self.operands) < least:
            raise usage(self.first + len(self.operands))


def usage(place):
    return Answered('usage: word %d' % place)


def read_files(names):
    """the bytes of regular files, which together keep the limit"""
    found, total = [], 0
    for name in names:
        try:
            is_regular, size = stat.S_ISREG(os.stat(name).st_mode), os.stat(name).st_size
            if not is_regular:
                raise OSError
            total += size
            if total > LIMIT:
                raise Answered('too big %s sum=%d' % (name, total))
            with open(name, 'rb') as file:
                found.append(file.read())
        except OSError:
            raise Answered('read fault', FAULT) from None
    return found


def program_of(main, files):
    """the program of class files that `jop link` takes"""
    try:
        return Program(main, files)
    except (LookupError, ValueError, TypeError, AssertionError, StopIteration, RecursionError) as fault:
        raise NotLinked from fault


def main_class(word):
    """the bytes of the name of the class that is told by `--main`, in which a point is a slash"""
    name = named(word)
    if name is None:
        raise NotLinked
    return name.replace(b'.', b'/')


def compare(program, kept):
    """compares the words of an image with those of its class files"""
    linked = [word(each) for _, region in program.image.regions() for each in region]
    for place in range(max(len(kept), len(linked))):
        pair = [shown(words[place:place + 1]) for words in (kept, linked)]
        if pair[0] != pair[1]:
            raise Answered('differs word=%d kept=%s linked=%s' % (place, *pair))


def shown(words):
    return '%08x' % words[0] if words else 'none'


def right(found):
    """what was read, where it isn't the line that refuses it"""
    if isinstance(found, str):
        raise Answered(found)
    return found


def texts_of(bounds, certificate, facts, facts_by):
    """what the texts say: of bounds, of facts, which `facts_by` looks up, and of a certificate"""
    found = right(read_bounds(bounds))
    given = {} if facts is None else right(facts_by(right(read_facts(facts))))
    read = right(read_certificate(certificate.decode('latin-1'), (1, 2) if facts is None else (1, 2, 3)))
    return found, given, read


def check_program(program, timing, bounds, certificate, facts=None):
    """the line for a program, and the bytes of two texts, or of three"""
    too_long = Priced(program, timing, {}).too_long()
    if too_long is not None:
        name, blocks = program.names[too_long[0]], too_long[1]
        raise Answered('method too long %s blocks=%d limit=%d' % (name, blocks, timing.blocks))
    found, given, read = texts_of(bounds, certificate, facts, lambda lines: facts_of(program, lines))
    return check(Priced(program, timing, found), read, given)


def check_bare(image, timing, bounds, certificate, facts=None):
    """the line for a bare image, which has no class files"""
    blocks = -(-words_of({'code': image.code}) // timing.block_words)
    if blocks > timing.blocks:
        raise Answered('method too long boot blocks=%d limit=%d' % (blocks, timing.blocks))
    _, _, read = texts_of(bounds, certificate, facts, lambda lines: lines)
    missing = read.sections[0].method if read.sections else read.root
    raise Answered('check: missing #%d' % missing)


@lru_cache(1)
def known_image(data):
    """what the bytes of an image hold: a bare image, or the program of a linked one; the last is kept"""
    try:
        image = read_image(data)
    except BadImage:
        raise Answered('bad image') from None
    if isinstance(image, BareImage):
        return image
    program = program_of(image.main, image.files)
    compare(program, image.words)
    return program


def check_image(data, timing, *texts):
    """the line for the bytes of an image and of two texts, or of three"""
    known = known_image(data)
    return (check_bare if isinstance(known, BareImage) else check_program)(known, timing, *texts)


def answer(words):
    """the line and the status for the words behind `check`, or for these with `--main` and with `--method`"""
    try:
        return answered(Words(words, ('--main', '--method', '--facts'))), HOLDS
    except Answered as other:
        return other.line, other.status
    except NotLinked:
        return 'recheck: no program of these class files; jop link says why', WRONG


def answered(asked):
    """the line of a certificate that holds"""
    main, method, facts = (asked.values.get(each) for each in ('--main', '--method', '--facts'))
    asked.require_operands(OPERANDS, OPERANDS if main is None else None)
    read = read_files(asked.operands + ([] if facts is None else [facts]))
    count = len(asked.operands) - 2
    files, texts = read[:count], read[count:]
    if main is None:
        line = check_image(files[0], asked.timing(), *texts)
    else:
        line = check_program(program_of(main_class(main), files), asked.timing(), *texts)
    if not line.startswith('holds '):
        raise Answered(line)
    name = line.split(' ')[1]
    if method not in (None, name):
        raise Answered('recheck: the certificate is of %s' % name)
    return line
