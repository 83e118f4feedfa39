#!/usr/bin/env python3
"""profile_calls.py PLAIN: writes tests/tables/profile: words, files, texts, settings and streams of `profile`, each refusal in front of the later ones.

PLAIN is the plain simulator, ../plain.c, compiled; it runs what isn't refused. The rest was worked out by hand.
"""
import json
import os
import sys

HERE = os.path.dirname(os.path.abspath(__file__))
sys.dont_write_bytecode = True
sys.path[:0] = [HERE, os.path.join(HERE, '../bounds'), os.path.join(HERE, '../../harness')]
import hand_profiles as hand  # noqa: E402
from call_rows import BARE, LIMIT, LONG_BARE, spelling  # noqa: E402
from calls import Call, out_text, shown  # noqa: E402
from costs import Timing  # noqa: E402
from simulated import Machine, Simulated, profiled  # noqa: E402

TABLE = os.path.join(HERE, '../../tables/profile')
ENDED = 'ended cycles=4 hits=0 misses=0'
BOUND = 'A.x()V 1 loop<=1\n'
# An address space in which the program starts, but with no room for the most words of memory.
ROOM = 'room=50331648'


class Rows:
    """rows of calls, with what they have to answer"""

    def __init__(self):
        self.rows, self.wanted = [], []

    def add(self, words, status, line, out=b'', **files):
        """a call; a file that is named by a word is a text, bytes, or a spelling behind a sign of equality"""
        spelled = {name: value[1:] if str(value)[:1] == '=' else value.hex() if isinstance(value, bytes) else spelling(value) for name, value in files.items()}
        row = ' '.join(word + ('=' + spelled[word] if word in spelled else '') for word in words.split(' '))
        self.rows.append(row)
        self.wanted += ['%s -> %d, out %s' % (shown(Call(row)), status, out_text(out)), '  ' + json.dumps(line + '\n' if line else '')]

    def link(self, known):
        """links one class file, so that '=@' is its image"""
        self.add('link --main A A.class', 0, known.linked_line(), known.data, **{'A.class': known.files[0]})


def words(rows):
    for text, place in (('profile', 1), ('profile %', 1), ('profile i', 2), ('profile i %', 2), ('profile % b', 1), ('profile i b c', 3), ('profile i b --cycles 5', 3),
                        ('profile i b c d', 3), ('profile --cycles', 2), ('profile --cycles 5', 3), ('profile --cycles 5 i', 4), ('profile --cycles i b', 2),
                        ('profile --cycles 9223372036854775808 i b', 2), ('profile --cycles 01 i b', 2), ('profile --stack 255 i b', 2), ('profile --stack 513 i b', 2),
                        ('profile --memory 15 i b', 2), ('profile --memory 16777217 i b', 2), ('profile --blocks 0 i b', 2), ('profile --blocks 257 i b', 2),
                        ('profile --block-words 0 i b', 2), ('profile --block-words 1025 i b', 2), ('profile --read 64 i b', 2), ('profile --write 64 i b', 2),
                        ('profile --read 1 --read 1 i b', 3), ('profile --micro i b', 1), ('profile --method A.e()V i b', 1), ('profile --all i b', 1),
                        ('profile --shapes i b', 1), ('profile --rounds 1 i b', 1), ('profile --write 1 --micro i b', 3), ('profiles i b', 0), ('profil i b', 0)):
        rows.add(text, 2, 'usage: word %d' % place)
    most = 'profile --cycles 9223372036854775807 --stack 256 --memory 16 --blocks 1 --block-words 1 --read 63 --write 63 i b'
    rows.add(most, 0, 'ended cycles=4 hits=0 misses=0', i=BARE, b='')


def files(rows):
    call = 'profile i b'
    rows.add(call, 4, 'read fault')
    rows.add(call, 4, 'read fault', i=BARE)
    rows.add(call, 4, 'read fault', i='x')
    rows.add(call, 4, 'read fault', b='x')
    rows.add(call, 4, 'read fault', i='=folder', b='')
    rows.add(call, 4, 'read fault', i=BARE, b='=folder')
    rows.add(call, 2, 'too big i sum=%d' % (LIMIT + 1), i='=%d*00' % (LIMIT + 1))
    rows.add(call, 2, 'too big b sum=%d' % (LIMIT + 1), i=BARE, b='=%d*0a' % (LIMIT + 1 - len(BARE)))
    rows.add(call, 0, ENDED, i=BARE, b='=%d*0a' % (LIMIT - len(BARE)))
    rows.add(call, 2, 'bad image', i=BARE + b'\0', b='x')
    rows.add(call, 2, 'bad image', i=b'JOPI', b='x')
    rows.add(call, 2, 'bad image', i=b'', b='x')


def bare(rows):
    """of a bare image its run's ending, and no line; what it puts out isn't put"""
    call = 'profile i b'
    rows.add(call, 0, ENDED, i=BARE, b='')
    rows.add(call, 0, ENDED, i=BARE, b=BOUND)
    rows.add('profile --cycles 0 i b', 3, 'spent cycles=0 hits=0 misses=0', i=BARE, b='')
    rows.add('profile --cycles 3 i b', 3, 'spent cycles=3 hits=0 misses=0', i=BARE, b='')
    rows.add('<closed ' + call, 0, ENDED, i=BARE, b='')
    for stream in ('full', 'closed', 'gone'):
        rows.add('>%s %s' % (stream, call), 0, ENDED, i=BARE, b='')
        rows.add('2>%s %s' % (stream, call), 4, '', i=BARE, b='')
    rows.add('profile --blocks 1 i b', 2, 'method too long boot blocks=2 limit=1', i=LONG_BARE, b='x')
    rows.add(call, 2, 'bad bounds line=1', i=LONG_BARE, b='x')
    rows.add(call, 2, 'bad bounds line=2', i=BARE, b=BOUND + 'A.java:3 loop<=5')
    rows.add(call, 2, 'twice bound line=2', i=BARE, b=BOUND * 2 + 'x')
    rows.add(ROOM + ' profile --memory 16777216 i b', 5, 'no memory', i=BARE, b='')
    rows.add(ROOM + ' profile --memory 16777216 i b', 2, 'bad bounds line=1', i=BARE, b='x')


def linked(rows, known):
    """a program that reads and puts; what each stream does"""
    rows.link(known)

    def ran(text, given=b'', fails=None, machine=Machine(), bounds=''):
        status, line, put = profiled(known, machine, given, bounds.encode(), fails)
        rows.add(text, status, line, ''.join(each + '\n' for each in put).encode(), i='=@', b=bounds)
        return status, line, put
    ran('profile i b')
    whole = ran('<6162 profile i b', b'ab', bounds=BOUND)
    ran('<616263 profile i b', b'abc')
    ran('<slow:6162 profile i b', b'ab')
    ran('<slow:6162 >slow profile i b', b'ab')
    assert ran('<closed profile i b', fails=0)[:2] == (4, 'read fault')
    ran('<folder profile i b', fails=0)
    for cycles in (0, 400, 900, 1500):
        ran('<6162 profile --cycles %d i b' % cycles, b'ab', machine=Machine(cycles=cycles))
    small = Machine(Timing(5, 9, 8, 8), 256, known.words)
    ran('<6162 profile %s i b' % ' '.join(small.options()), b'ab', machine=small)
    for stream in ('full', 'closed', 'gone'):
        rows.add('<6162 >%s profile i b' % stream, 4, 'write fault', i='=@', b='')
        rows.add('<6162 >%s 2>%s profile i b' % (stream, stream), 4, '', i='=@', b='')
        rows.add('<6162 2>%s profile i b' % stream, 4, '', ''.join(each + '\n' for each in whole[2]).encode(), i='=@', b='')
        # no line is put before the first method ends, so nothing fails
        rows.add('<6162 >%s profile --cycles 0 i b' % stream, 3, 'spent cycles=0 hits=0 misses=0', i='=@', b='')
    refused(rows, known)


def refused(rows, known):
    """each refusal of an image in front of the later ones"""
    words = known.words
    rows.add('profile --blocks 1 --block-words 1 --memory 16 i b', 2, profiled(known, Machine(Timing(1, 2, 1, 1), memory=16), b'', b'x')[1], i='=@', b='x')
    rows.add('profile --memory %d i b' % (words - 1), 2, 'memory too small words=%d given=%d' % (words, words - 1), i='=@', b='x')
    rows.add('profile --memory %d i b' % words, 2, 'bad bounds line=1', i='=@', b='x')
    rows.add('profile --memory %d i b' % words, 2, 'twice bound line=2', i='=@', b=BOUND * 2 + 'x')
    rows.add('profile i c', 4, 'read fault', i='=@')
    rows.add(ROOM + ' profile --memory 16777216 i b', 5, 'no memory', i='=@', b='')
    rows.add('profile i b', 2, 'bad image', i=known.data[:-1], b='x')
    first = known.data.index(b'\xca\xfe\xba\xbe')
    other = known.data[:first] + b'\xcb' + known.data[first + 1:]
    rows.add('profile i b', 2, 'link: bad class file=0', i=other, b='x')
    at = 8 + 1 + 8 + 4 * 7 + 3
    changed = known.data[:at] + bytes([known.data[at] ^ 1]) + known.data[at + 1:]
    kept, word = (int.from_bytes(data[at - 3:at + 1], 'big') for data in (changed, known.data))
    rows.add('profile i b', 2, 'differs word=7 kept=%08x linked=%08x' % (kept, word), i=changed, b='x')


def main():
    rows = Rows()
    words(rows)
    files(rows)
    bare(rows)
    linked(rows, Simulated(sys.argv[1], 'A', hand.reading()))
    with open(TABLE + '.calls', 'w') as file:
        file.write('# Written by ../expected/profiles/profile_calls.py.\n' + ''.join(row + '\n' for row in rows.rows))
    with open(TABLE + '.wanted', 'w') as file:
        file.write(''.join(line + '\n' for line in rows.wanted))


if __name__ == '__main__':
    main()
