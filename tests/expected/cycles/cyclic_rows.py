"""Rows of `plan` and `cycle`: what both take and refuse alike."""
import os
import sys

HERE = os.path.dirname(os.path.abspath(__file__))
sys.path[:0] = [HERE, os.path.join(HERE, '../profiles'), os.path.join(HERE, '../../harness')]
import hand_cycles as hand  # noqa: E402
from cyclic import MOST_LENGTH, Cyclic, Slot, executive, method_index, read_table, table_of  # noqa: E402
from profile_calls import LIMIT, ROOM, Rows  # noqa: E402, F401

TABLES = os.path.join(HERE, '../../tables')
ONE = [Slot('A.e()V', 100000)]


def slots_of(names, length=100000):
    return [Slot('A.%s()V' % name, length) for name in names]


class CyclicRows(Rows):
    """rows of one of the commands; PLAIN is the plain simulator"""

    def __init__(self, word, plain):
        super().__init__()
        self.word, self.plain = word, plain

    def words(self, options='--rounds 1', count=1, front=''):
        """the words of a call with so many class files"""
        operands = ' '.join(['t', *(['b'] if self.word == 'plan' else []), *('f%d' % number for number in range(count))])
        return ' '.join(each for each in (front, self.word, options, operands) if each)

    def given(self, table, files, bounds=''):
        """the files that the words name"""
        found = {'f%d' % number: data for number, data in enumerate(files)}
        found['t'] = table_of(table) if isinstance(table, list) else table
        return {**found, **({'b': bounds} if self.word == 'plan' else {})}

    def refuse(self, line, table, files=(), options='--rounds 1', bounds='x'):
        """a call that is refused, or `slots` in place of a table that is read"""
        files = list(files) or hand.small()
        self.add(self.words(options, len(files)), 2, line, **self.given(table, files, bounds))

    def written(self):
        for name, lines in (('.calls', ['# Written by ../expected/cycles/%s_calls.py.' % self.word, *self.rows]), ('.wanted', self.wanted)):
            with open(os.path.join(TABLES, self.word + name), 'w', encoding='utf-8') as file:
                file.write(''.join(line + '\n' for line in lines))


def usage(rows, cases):
    for text, place in cases:
        rows.add(text, 2, 'usage: word %d' % place)


# Lines of no table, each behind `slot A.e()V 5`: bytes, or a text.
MALFORMED = (
    'slot A.e()V', 'slot A.e()V ', 'slot A.e()V 0', 'slot A.e()V 01', 'slot A.e()V +1', 'slot A.e()V -1', 'slot A.e()V 18446744073709551616', 'slot A.e()V 1.0', 'slot A.e()V 0x1',
    'slot A.e()V 1 ', 'slot A.e()V  1', 'slot  A.e()V 1', ' slot A.e()V 1', 'slot A.e()V 1 1', 'slot\tA.e()V 1', 'slot A.e()V\t1', 'Slot A.e()V 1', 'slots A.e()V 1', 'A.e()V 1',
    'slot', ' ', ' # x', 'x', 'slot e()V 1', 'slot .e()V 1', 'slot A.()V 1', 'slot A.e 1', 'slot A.e() 1', 'slot A.e(I)V 1', 'slot A.e()I 1', 'slot A.e()VV 1', 'slot A. e()V 1',
    'slot [A.e()V 1', 'slot A[.e()V 1', 'slot A;.e()V 1', 'slot LA;.e()V 1', 'slot /A.e()V 1', 'slot A/.e()V 1', 'slot p//A.e()V 1', 'slot p.A.e()V 1', 'slot A.e/f()V 1', 'slot A.e;()V 1',
    'slot A.[e()V 1', 'slot A.<e>()V 1', 'slot A.e<()V 1', 'slot A.<init()V 1', 'A.e()V 4 loop<=5', 'slot A.e()V 1 # x',
)
# Bytes that are no spelling of a pool's text (4.4.7): a line with a CR, a byte that begins nothing, a zero, a letter of two bytes cut, one that is spelled too long, one of four bytes.
NO_TEXT = (b'slot A.e()V 1\r', b'\r', b'slot A.\xff()V 1', b'slot A.\0()V 1', b'slot A.\xc3()V 1', b'slot A.\xc1\xa9()V 1', b'slot A.\xf0\x9d\x84\x9e()V 1', b'\xffslot A.e()V 1')


def tables(rows, most=None):
    """each malformed line, in front of what it would come before; or so many of them alone"""
    good = 'slot A.e()V 5\n'
    for line in MALFORMED[:most]:
        text = good + line + '\n'
        assert read_table(text) == 'bad table line=2', line
        rows.refuse('bad table line=2', text)
    for line in NO_TEXT[:most]:
        rows.refuse('bad table line=2', good.encode() + line + b'\n')
    long = 'slot A.%s()V 1\n'
    rows.refuse('bad table line=1', '=%s+%s+%s' % (b'slot A.'.hex(), '65536*65', b'()V 1\n'.hex()))
    rows.refuse('bad table line=3', good + '\n' + long % '' + 'x\n')
    rows.refuse('bad table line=4', '# slots\n\n' + good + 'x')
    # the lines go before their number
    rows.refuse('bad table line=66', good * 65 + 'x\n')
    for text in ('', '\n', '# x\n\n#', good * 65, '#\n' + good * 66, good * 1000):
        rows.refuse(read_table(text), text)
    # a text of as many bytes as there may be, most of which are line feeds
    size = LIMIT - 1 - sum(len(data) for data in hand.small()) - (1 if rows.word == 'plan' else 0)
    rows.refuse('bad table line=%d' % (size + 1), '=%d*0a+%s' % (size, b'x'.hex()))


def unlinked(rows):
    """why the files aren't linked with the executive, which is the last one"""
    files = hand.inaccessible()

    def refuse(name, why, told=None, files=files, others=()):
        slots = [*others, Slot(name, 5)]
        line = 'link: unresolved file=%d entry=%d why=%s name=%s' % (len(files), method_index(slots, len(slots) - 1), why, told or name)
        rows.refuse(line, slots, files, options='--rounds 1 --blocks 1 --block-words 1')
    refuse('X.e()V', 'NoClass', 'X')
    refuse('p/X.e()V', 'NoClass', 'p/X')
    refuse('cyclic.e()V', 'NoClass', 'cyclic')
    refuse('A.x()V', 'NoMethod')
    refuse('A.f()V', 'NoMethod')
    refuse('A.e()V()V', 'NoMethod')
    refuse('Cyclic.x()V', 'NoMethod')
    refuse('java/lang/Object.x()V', 'NoMethod')
    refuse('A.h()V', 'NotAccessible')
    refuse('p/B.k()V', 'NotAccessible')
    refuse('p/C.e()V', 'NotAccessible')
    refuse('jop/Boot.boot()V', 'NotAccessible')
    refuse('A.i()V', 'WrongKind')
    refuse('T.e()V', 'WrongKind')
    refuse('J.e()V', 'WrongKind')
    # an initialiser is none to call
    refuse('java/lang/Object.<init>()V', 'WrongKind')
    refuse('A.<clinit>()V', 'WrongKind', files=hand.before())
    # the first slot that is refused, behind some that aren't
    refuse('X.e()V', 'NoClass', 'X', others=[Slot('A.e()V', 5), Slot('A.k()V', 5), Slot('A.e()V', 7)])
    # an earlier file goes first, and another class of the executive's name
    small = hand.small()
    rows.refuse('link: bad class file=0', [Slot('X.e()V', 5)], [b'x', *small])
    rows.refuse('link: bad class file=1', [Slot('X.e()V', 5)], [*small, b''])
    rows.refuse('link: duplicate file=1 name=A', ONE, [*small, *small])
    rows.refuse('link: duplicate file=1 name=Cyclic', ONE, [executive(ONE, 1)])
    rows.refuse('link: duplicate file=2 name=Cyclic', ONE, [*small, executive(ONE, 2)])


def files(rows):
    """files that can't be read, and how many bytes they have together"""
    data, table = hand.small()[0], table_of(ONE)
    names = [each for each in rows.words().split(' ') if len(each) < 3 and not each.isdigit()]
    good = {'t': table, 'b': '', 'f0': data}
    for place, name in enumerate(names):
        before = {each: good[each] for each in names[:place]}
        behind = {each: 'x' for each in names[place + 1:]}
        for other in ({}, {name: '=folder'}, {name: '=pipe'}):
            rows.add(rows.words(), 4, 'read fault', **before, **other)
        rows.add(rows.words(), 4, 'read fault', **before, **behind)
        size = LIMIT + 1 - sum(len(good[each]) for each in names[:place])
        # what comes behind is too much, too, and isn't read
        rows.add(rows.words(), 2, 'too big %s sum=%d' % (name, LIMIT + 1), **before, **{name: '=%d*0a' % size})
    rows.add(rows.words(count=2), 4, 'read fault', **{each: good[each] for each in names})
    size = LIMIT + 1 - sum(len(good[each]) for each in names)
    rows.add(rows.words(count=2), 2, 'too big f1 sum=%d' % (LIMIT + 1), **{each: good[each] for each in names}, f1='=%d*00' % size)
    # the files go before the table
    rows.add(rows.words(), 4, 'read fault', t='x')
    return {each: good[each] for each in names}, size - 1
