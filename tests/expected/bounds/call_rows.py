"""Rows of `check`: words, files, images, texts that are refused, and settings."""
import json
import os
import sys

HERE = os.path.dirname(os.path.abspath(__file__))
sys.path[:0] = [HERE, os.path.join(HERE, '../graphs'), os.path.join(HERE, '../../harness')]
import flow  # noqa: E402
import image_file  # noqa: E402
import programs  # noqa: E402
from certificate import answer, read_certificate  # noqa: E402
from costs import Timing  # noqa: E402
from kind import sum_of  # noqa: E402
from study import Study, read_bounds  # noqa: E402

BARE = b'JOPB\0\1\0\0\0\1\0\0\0\4\x10A\xff\xb1'
LONG_BARE = b'JOPB\0\1\0\0\0\0\0\0\x01\x2c' + bytes(299) + b'\xb1'
LIMIT = 16777216


class Calls:
    """rows of calls, with what they have to answer"""

    def __init__(self):
        self.rows, self.wanted = [], []

    def add(self, words, status, line, **files):
        """a call; a file that is named by a word is a text, bytes, or a spelling behind a sign of equality"""
        spelled = {name: value[1:] if str(value)[:1] == '=' else value.hex() if isinstance(value, bytes) else spelling(value) for name, value in files.items()}
        self.rows.append(' '.join(word + ('=' + spelled[word] if word in spelled else '') for word in words.split(' ')))
        self.wanted += ['%s -> %d, out .' % (words, status), '  ' + json.dumps(line + '\n')]

    def link(self, program, data):
        """links one class file, so that '=@' is its image"""
        image = image_of(program, data)
        line = 'linked classes=%d methods=%d words=%d bytes=%d' % (len(program.classes), len(program.coded), len(words_of(program)), len(image))
        self.rows.append('link --main A A.class=' + data.hex())
        self.wanted += ['link --main A A.class -> 0, out %d bytes, sum %08x' % (len(image), sum_of(image)), '  ' + json.dumps(line + '\n')]


def spelling(text):
    return "'" + text.replace('%', '%25').replace(' ', '%20').replace('\n', '%0A')


def words_of(program):
    found = [flow.expected_image.word(each) for _, region in program.image.regions() for each in region]
    return found


def image_of(program, data):
    return image_file.ImageFile(b'A', words_of(program), [data]).data()


def calls():
    """words, files that lack or are too large, images that are none, settings, texts that are none, images without methods"""
    table, check = Calls(), 'check i b c'
    for words, place in (('check', 1), ('check i', 2), ('check i b', 3), ('check i b c d', 4), ('check --read', 2), ('check --read 1', 3), ('check --read i b c', 2),
                         ('check --read 01 i b c', 2), ('check --read 64 i b c', 2), ('check --write 64 i b c', 2), ('check --write -1 i b c', 2), ('check --blocks 0 i b c', 2),
                         ('check --blocks 257 i b c', 2), ('check --block-words 0 i b c', 2), ('check --block-words 1025 i b c', 2), ('check --read 1 --read 1 i b c', 3),
                         ('check --method A.e()V i b c', 1), ('check --stack 256 i b c', 1), ('check --memory 16 i b c', 1), ('check --cycles 5 i b c', 1),
                         ('check --micro i b c', 1), ('check % b c', 1), ('check i % c', 2), ('check i b %', 3), ('check i b c --read 1', 4), ('checks i b c', 0)):
        table.add(words, 2, 'usage: word %d' % place)
    never, bare = 'JOPC 1\nroot 5\nbound never\n', dict(i=BARE, b='')
    table.add(check, 4, 'read fault')
    table.add(check, 4, 'read fault', i=BARE, c=never)
    table.add(check, 4, 'read fault', i=BARE, b='')
    table.add('check i b --read', 4, 'read fault', i=BARE, b='')
    table.add(check, 4, 'read fault', i=b'', b='x')
    # the sum of the lengths, file by file
    table.add(check, 2, 'too big i sum=%d' % (LIMIT + 1), i='=%d*00' % (LIMIT + 1), b='', c='')
    table.add(check, 2, 'too big b sum=%d' % (LIMIT + 1), i=BARE, b='=%d*0a' % (LIMIT + 1 - len(BARE)), c='')
    table.add(check, 2, 'too big c sum=%d' % (LIMIT + 1), i=BARE, b='=%d*0a' % (LIMIT - len(BARE)), c='=0a')
    table.add(check, 2, 'too big b sum=%d' % (LIMIT + 1), i=BARE, b='=%d*0a' % (LIMIT + 1 - len(BARE)))
    table.add(check, 2, 'check: missing #5', i=BARE, b='=%d*0a' % (LIMIT - len(BARE) - len(never)), c=never)
    # each cause with later ones
    table.add(check, 2, 'bad image', i=BARE + b'\0', b='x', c='x')
    table.add(check, 2, 'bad image', i=b'', b='x', c='x')
    table.add('check --blocks 1 i b c', 2, 'method too long boot blocks=2 limit=1', i=LONG_BARE, b='x', c='x')
    table.add(check, 2, 'bad bounds line=1', i=LONG_BARE, b='x', c='x')
    table.add(check, 2, 'bad cert line=1', i=LONG_BARE, b='', c='x')
    bounds(table, check)
    certificates(table, check, bare)
    linked(table, check)
    return table.rows, table.wanted


def bounds(table, check):
    """texts of bounds"""
    never = 'JOPC 1\nroot 5\nbound never\n'
    for text in ('A.m()V 2 loop<=10\n\n', 'A.m()V 2 loop<=010\n', 'A.m()V 2 loop<=10\nA.m()V 2 loop<=10\n', 'A.m()V 2 loop<=1\nA.m()V 3 loop<=1\nA.n()V 2 loop<=1\n# x\n#\nA.m()V 2 loop<=2',
                 'A.m()V 2 loop<=1\nA.m()V 2 loop<=1\nx\n', 'x\nA.m()V 2 loop<=1\nA.m()V 2 loop<=1\n', 'A.m()V 4294967295 loop<=4294967295\n', 'A.m()V 4294967296 loop<=1\n',
                 'A.m()V 2 loop<=4294967296\n', 'A.m()V  2 loop<=1\n', ' A.m()V 2 loop<=1\n', 'A.m()V 2 loop<=1 \n', 'A.m()V 2 loop<1\n', 'A.m()V 2 loop<=\n', ' 2 loop<=1\n', 'A.m()V -0 loop<=1\n',
                 'A.m()V 2 loop<=1\r\n', 'A.m()V\t2 loop<=1\n', '\n\n \n', '# x y z', 'A.m()V 2', 'A.m()V 00 loop<=1\n', '#.m()V 2 loop<=x\n'):
        found = read_bounds(text.encode())
        line = found if isinstance(found, str) else 'check: missing #5'
        table.add(check, 2, line, i=BARE, b='=' + text.encode().hex(), c=never)


def certificates(table, check, bare):
    """texts of certificates: one line that is refused of each kind (crates/test_readers has them all), and images that have no methods"""
    for text in ('JOPC 3\nroot 5\nbound never\n', 'JOPC 1\nsection inside 5\n', 'JOPC 1\nroot 5\nsection loops 5\nbound never\n', 'JOPC 1\nroot 5\n', 'JOPC 1\nroot 5\nbound never\n\n', '', '\n',
                 'JOPC 1\nroot 5\nnode 0 1\nbound 1\n', 'JOPC 2\nroot 5\nsection inside 5\nregion 0 1 0\nbound 1\n', 'JOPC 2\nroot 5\nsection alone 5\nsection loops 5\nbound 1\n',
                 'JOPC 1\nroot 5\nsection inside 5\nnode 0 1\nnode 0 1\nbound 1\n', 'JOPC 1\nroot 5\nsection inside 5\nnode 0 -0\nbound 1\n', 'JOPC 1\nroot 5\nsection inside 5\nnode 0 18446744073709551616\n',
                 'JOPC 1\nroot 5\nbound 18446744073709551616\n', 'JOPC 1\nroot 4294967296\nbound 1\n', 'JOPC 1\nroot 5\nsection inside 5\nloop 0 1\nbound 1\n'):
        table.add(check, 2, read_certificate(text), c=text, **bare)
    table.add(check, 2, 'check: missing #5', c='JOPC 1\nroot 5\nbound never', **bare)
    table.add(check, 2, 'check: missing #0', c='JOPC 1\nroot 0\nbound never\n', **bare)
    table.add(check, 2, 'check: missing #7', c='JOPC 1\nroot 5\nsection inside 7\nsection inside 5\nbound 3\n', **bare)
    table.add(check, 2, 'check: missing #0', c='JOPC 2\nroot 0\nsection loops 0\nnode 0 9\nbound 9\n', **bare)
    table.add(check, 2, 'check: missing #4294967295', c='JOPC 2\nroot 4294967295\nbound 18446744073709551615\n', **bare)


def linked(table, check):
    """linked images, whole and with damage"""
    data = programs.worked()
    program = flow.Program('A', [data])
    image, words = image_of(program, data), words_of(program)
    m = program.names.index('A.e()V')
    full = 53 + 7
    greatest = Study(program, Timing(), {}).greatest_load()
    good = 'JOPC 1\nroot %d\nsection inside %d\nnode 0 53\nbound %d\n' % (m, m, 128 + full + greatest)
    assert answer(program, Timing(), b'', good) == 'holds A.e()V %d' % (128 + full + greatest)
    table.link(program, data)
    table.add(check, 0, 'holds A.e()V %d' % (128 + full + greatest), i='=@', b='', c=good)
    table.add('check --block-words 1024 --read 1 --blocks 256 --write 2 i b c', 0, 'holds A.e()V %d' % (128 + full + greatest), i='=@', b='', c=good)
    table.add('check --write 63 i b c', 0, 'holds A.e()V %d' % (128 + full + greatest), i='=@', b='', c=good)
    # a read that waits no cycle
    table.add('check --read 0 i b c', 0, answer(program, Timing(read=0), b'', zero_read(good, program, m)), i='=@', b='', c=zero_read(good, program, m))
    table.add('check --read 0 i b c', 2, 'check: region A.e()V', i='=@', b='', c=good)
    too_long = Study(program, Timing(blocks=1, block_words=1), {}).too_long()
    line = 'method too long %s blocks=%d limit=1' % (program.names[too_long[0]], too_long[1])
    table.add('check --blocks 1 --block-words 1 i b c', 2, line, i='=@', b='x', c='x')
    table.add(check, 2, 'bad bounds line=1', i='=@', b='x', c='x')
    table.add(check, 2, 'twice bound line=2', i='=@', b='A 1 loop<=1\nA 1 loop<=1\n', c='x')
    table.add(check, 2, 'bad cert line=1', i='=@', b='', c=good.replace('JOPC 1', 'JOPC 3'))
    table.add('check i b d', 4, 'read fault', i='=@', b='')
    changed = image_file.ImageFile(b'A', [*words[:7], words[7] ^ 1, *words[8:]], [data]).data()
    table.add(check, 2, 'differs word=7 kept=%08x linked=%08x' % (words[7] ^ 1, words[7]), i=changed, b='x', c='x')
    table.add(check, 2, 'bad image', i=image[:-1], b='', c=good)
    other = image_file.ImageFile(b'A', words, [bytes([data[0] ^ 1]) + data[1:]]).data()
    table.add(check, 2, 'link: bad class file=0', i=other, b='', c=good)


def zero_read(good, program, m):
    """the certificate of a method of one return where a read waits no cycle: 52 cycles, and a load of 4 + 1 * 2"""
    bound = 122 + 52 + 6 + Study(program, Timing(read=0), {}).greatest_load()
    return '\n'.join([*good.split('\n')[:3], 'node 0 52', 'bound %d' % bound, ''])
