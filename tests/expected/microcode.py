"""Texts of microcode, by the words of docs/formats.md: the listing, or the first line that breaks a rule and the rule."""
import re

NAMES = ('nop pop dup add sub and or xor shl shr ushr mul slt sltu ldo ldo8 ldo16 ldl stl ld0 ld1 ld2 ld3 st0 st1 st2 st3 ldvp stvp ldsp stsp ldjpc stjpc star '
         'ldmi stmi stmra stmwa stmwd wait ldmrd stbc jbr jbg ldin stout hltb hltu').split()
NUMBERED = {'stm': 0x100, 'ldm': 0x120, 'ldi': 0x140}
BRANCHES = {'bz': 0x800, 'bnz': 0x1000, 'jmp': 0x1800}
NUMBER = '(0|[1-9][0-9]*)'
WORDS = 2048


def number(part, most):
    """a number that is at most so great, or none"""
    return int(part) if re.fullmatch(NUMBER, part) and int(part) <= most else None


def is_label(part):
    return bool(re.fullmatch('[A-Za-z0-9_]+', part)) and not re.fullmatch(NUMBER, part)


def constant(part):
    """the 32 bits of a constant, or none"""
    if part.startswith('-'):
        size = number(part[1:], 2**31)
        return 2**32 - size if size else None
    return number(part, 2**32 - 1)


def flagged(body, flags):
    bits = {(): 0, ('opd',): 0x4000, ('nxt',): 0x8000, ('opd', 'nxt'): 0xC000}.get(tuple(flags))
    return None if bits is None else ('word', body | bits)


def directive(name, rest):
    """what a directive says, or none"""
    if name == '.raise':
        return ('entry', 'raise') if not rest else None
    if name == '.entry' and len(rest) == 1 and number(rest[0], 255) is not None:
        return 'entry', int(rest[0])
    if name == '.const' and len(rest) == 2 and number(rest[0], 31) is not None and constant(rest[1]) is not None:
        return 'const', int(rest[0])
    if name == '.turns' and len(rest) == 1 and (rest[0] in ('pairs', 'entries') or number(rest[0], 2**32 - 1) is not None):
        return ('turns',)
    return None


def microinstruction(name, rest):
    """a word, a branch to a label, or none"""
    if name in BRANCHES:
        return ('branch', BRANCHES[name], rest[0]) if len(rest) == 1 and is_label(rest[0]) else None
    if name in NUMBERED:
        place = number(rest[0], 31) if rest else None
        return None if place is None else flagged(NUMBERED[name] + place, rest[1:])
    return flagged(NAMES.index(name), rest) if name in NAMES else None


def line_of(text):
    """the labels of a line, and what it says behind them, or none"""
    parts = [part for part in text.split(' ') if part]
    comment = next((k for k, part in enumerate(parts) if part.startswith(';')), len(parts))
    parts, labels = parts[:comment], []
    while parts and parts[0].endswith(':') and is_label(parts[0][:-1]):
        labels.append(parts.pop(0)[:-1])
    if not parts:
        return labels, ('nothing',)
    said = (directive if parts[0].startswith('.') else microinstruction)(parts[0], parts[1:])
    return None if said is None else (labels, said)


class Assembly:
    """what the lines before the next one gave"""

    def __init__(self, lines):
        self.words, self.names, self.set, self.counted, self.places = [], set(), set(), False, {}
        count = 0
        for labels, said in filter(None, lines):
            for label in labels:
                self.places.setdefault(label, count % WORDS)
            count += said[0] in ('word', 'branch')

    def fault(self, line):
        """takes a line, or tells the rule that it breaks"""
        if line is None:
            return 'Form'
        labels, said = line
        for label in labels:
            if label in self.names:
                return 'LabelTwice'
            self.names.add(label)
        return getattr(self, said[0])(*said[1:])

    def nothing(self):
        pass

    def word(self, bits):
        self.words.append(bits)
        self.counted = False

    def branch(self, body, label):
        place = self.places.get(label)
        if place is None:
            return 'NoLabel'
        if place <= len(self.words) % WORDS and not self.counted:
            return 'NoTurns'
        return self.word(body + place)

    def entry(self, opcode):
        return self.once(('entry', opcode), 'EntryTwice')

    def const(self, place):
        return self.once(('const', place), 'ConstTwice')

    def once(self, what, rule):
        if what in self.set:
            return rule
        self.set.add(what)
        return None

    def turns(self):
        self.counted = True


def answer(data):
    """the status, what is put out, and the line on standard error"""
    text = data.decode('latin-1').split('\n')
    lines = [line_of(line) for line in (text[:-1] if text[-1] == '' else text)]
    assembly = Assembly(lines)
    for place, line in enumerate(lines, 1):
        rule = assembly.fault(line)
        if rule:
            return 2, b'', 'asm: line=%d %s\n' % (place, rule)
    if len(assembly.words) > WORDS:
        return 2, b'', 'asm: too long words=%d\n' % len(assembly.words)
    return 0, ''.join('%03x %04x\n' % each for each in enumerate(assembly.words)).encode(), ''
