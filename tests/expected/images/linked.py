"""Writes tests/tables/linking: class files, what linking them has to give by the rules, and what their image has to give with damage.
The images are those of tests/tables/images, whose words rows.py works out from the format of linked images."""
import os
import struct
import expected_image
from classfile import ClassFile, main_class

TABLES = os.path.join(os.path.dirname(os.path.abspath(__file__)), '../../tables')

rows, told = [], []
CORE = 23


def row(main, files, *lines):
    rows.append(' '.join([main] + [f.hex() for f in files]))
    told.extend([f'{main}: {lines[0]}', *lines[1:]])


def linked(main, files, words):
    length = 16 + len(main) + 4 * len(words) + sum(4 + len(f) for f in files)
    methods = len(expected_image.link(main.encode(), files).coded)
    row(main, files, f'linked classes={CORE + len(files) + 1} methods={methods} words={len(words)} bytes={length}', '  read: spent cycles=0 hits=0 misses=0',
        f'  word 5 changed: differs word=5 kept={words[5] ^ 1:08x} linked={words[5]:08x}', '  a byte less: bad image')


# the images that are known word by word
lines = open(os.path.join(TABLES, 'images.images')).read().split('\n')
words = [line.split(' ')[3:] for line in open(os.path.join(TABLES, 'images.wanted')).read().split('\n') if line.startswith('  words ')]
known = [line.split(' ')[1:] for line in lines if line.startswith('words ')]
for (main, *files), image in zip(known, words):
    linked(main, [bytes.fromhex(f) for f in files], [int(w, 16) for w in image])


def words_of(main, files):
    image = expected_image.link(main.encode(), files)
    return [expected_image.word(w) for _, region in image.regions() for w in region]


def damaged(main, files):
    words = words_of(main, files)
    length = 16 + len(main) + 4 * len(words) + sum(4 + len(f) for f in files)
    linked(main, files, words)
    told.extend([f'  {length} fronts are no image', f'  {len(words)} changed words are told',
                 '  too many words: bad image', '  another mark: link: bad class file=0'])


def with_version(data, major):
    return data[:6] + struct.pack('>H', major) + data[8:]


def with_superclass(data, index):
    k = ClassFile(0x21, 'Main')
    at = data.index(struct.pack('>HHH', 0x21, k.name, k.above)) + 4
    return data[:at] + struct.pack('>H', index) + data[at + 2:]


plain = main_class()
branch = main_class(b'\x03\x99\x00\x03')
damaged('Main', [plain])
row('B', [plain], 'link: no main')
row('Main', [with_superclass(plain, 0)], 'link: bad hierarchy file=0')
row('Main', [with_version(plain, 53)], 'link: unsupported version file=0 major=53')
row('Main', [plain, plain], 'link: duplicate file=1 name=Main')
row('Main', [plain[:-1]], 'link: bad class file=0')
row('Main', [with_version(branch, 50)], 'link: not verified file=0 method=0 pc=1 rule=target')
other = ClassFile(0x21, 'Other')
other.method(9, 'fine', '()V', b'\xb1')
other.method(9, 'broken', '()V', b'\x57\xb1')
row('Main', [plain, other.data()], 'link: not verified file=1 method=1 pc=0 rule=stack')

with open(os.path.join(TABLES, 'linking.linked'), 'w') as given, open(os.path.join(TABLES, 'linking.wanted'), 'w') as wanted:
    given.write('\n'.join(rows) + '\n')
    wanted.write('\n'.join(told) + '\n')

