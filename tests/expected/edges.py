#!/usr/bin/env python3
"""edges.py PLAIN MICROCODE: writes tests/tables/edges: each status, and what stands between the program and its files and streams.

The images are worked out by images/expected_image.py; those that run were run by PLAIN, the plain simulator, over the text MICROCODE. All else was worked
out by hand: a file that isn't regular fails, and so does a stream that can't be read or written."""
import os
import struct
import subprocess
import sys
import tempfile

HERE = os.path.dirname(os.path.abspath(__file__))
sys.path.insert(0, os.path.join(HERE, 'images'))
import expected_image  # noqa: E402
from classfile import ClassFile  # noqa: E402

TABLES = os.path.join(HERE, '../tables')
HELLO = '=~examples/hello.jopb'
ENDED = 'ended cycles=4 hits=0 misses=0\\n'
ECHOED = bytes.fromhex('68656c6c6f20ff0020776f726c64')
given, wanted = [], []


def sum_of(data):
    total = 0
    for byte in data:
        total = (total * 31 + byte) & 0xFFFFFFFF
    return total


def row(items, status, out, err, lines=()):
    """a row, with what stands between the blanks in its answer: the words, and streams that aren't plain"""
    given.append(' '.join(items))
    words = [item.split('=')[0] if '=' in item else item for item in items if item[:1] not in '<>+2' and not item.startswith('room=')]
    streams = ['<' + item[1:].split(':')[0] for item in items if item[:1] == '<' and (':' in item or item[1:] in ('folder', 'closed'))]
    streams += [item for item in items if item.startswith('>')] + [item for item in items if item.startswith('2>')]
    text = '%d bytes, sum %08x' % (len(out), sum_of(out)) if len(out) > 64 else out.hex() + '.'
    wanted.append('%s -> %d, out %s' % (' '.join(words + streams), status, text))
    wanted.append('  "%s"' % err)
    wanted.extend('  ' + line for line in lines)


def letters(count):
    return bytes(97 + (place + place // 251 + place // 4099) % 26 for place in range(count))


def made(name, text=b'', code=b'\xb1'):
    """a class file with main alone, and the text as an entry that nothing names, and that stands last"""
    made = ClassFile(0x21, name)
    made.method(9, 'main', '([Ljava/lang/String;)V', code(made) if callable(code) else code, 2, 1)
    if text:
        made.utf8(text.decode())
    return made.data()


def spelled(data, text):
    """the class file with its long text as so many letters"""
    at = data.index(text)
    return '%s+%d*letters+%s' % (data[:at].hex(), len(text), data[at + len(text):].hex()) if text else data.hex()


def image_of(main, files):
    image = expected_image.link(main.encode(), files)
    words = [expected_image.word(w) for _, region in image.regions() for w in region]
    data = b'JOPI' + struct.pack('>HH', 1, len(main)) + main.encode() + struct.pack('>II', len(words), len(files))
    data += b''.join(struct.pack('>I', w) for w in words) + b''.join(struct.pack('>I', len(f)) + f for f in files)
    return data, 'linked classes=%d methods=%d words=%d bytes=%d\\n' % (len(image.classes), len(image.coded), len(words), len(data)), image


def plainly(data, source=b'', show=()):
    """the status, the output and the line of a run by the plain simulator"""
    with tempfile.NamedTemporaryFile() as file:
        file.write(data)
        file.flush()
        settings = ['1024', '262144', '16', '64', '1', '2', '1000000000']
        ran = subprocess.run([sys.argv[1], *show, sys.argv[2], file.name, *settings], input=source, capture_output=True)
    return ran.returncode, ran.stdout, ran.stderr.decode()


def statuses():
    row(['run', 'b' + HELLO], 0, b'A', ENDED)
    data = made('A', code=b'\x04\x03\x6c\x57\xb1')
    image, line, linked = image_of('A', [data])
    row(['link', '--main', 'A', 'a=' + data.hex()], 0, image, line)
    status, out, ended = plainly(image)
    words = ended.split()
    name = linked.classes[int(words[1]) - 8].name.decode()
    assert (status, words[0], name) == (1, 'uncaught', 'java/lang/ArithmeticException')
    row(['run', 'b=@'], 1, out, ' '.join([words[0], name, *words[2:]]) + '\\n')
    row(['run'], 2, b'', 'usage: word 1\\n')
    row(['run', '--cycles', '3', 'b' + HELLO], 3, b'A', 'spent cycles=3 hits=0 misses=0\\n')
    row(['run', 'b'], 4, b'', 'read fault\\n')
    row(['room=50331648', 'run', '--memory', '16777216', 'b' + HELLO], 5, b'', 'no memory\\n')
    row(['run', '%ff'], 6, b'', '')
    row(['%ff', 'b' + HELLO], 6, b'', '')


def large_files():
    """files past 4,096, 8,192, 12,288 and 65,536 bytes, several that differ, and the image of them"""
    texts = [letters(13000), letters(62000), b'', letters(4500)]
    names = ['A', 'B', 'C', 'D']

    def write(k):
        both = k.entry(b'\x0c' + struct.pack('>HH', k.utf8('write'), k.utf8('(I)V')))
        return b'\x10\x41\xb8' + struct.pack('>H', k.entry(b'\x0a' + struct.pack('>HH', k.cls('jop/Io'), both))) + b'\xb1'
    files = [made('A', texts[0], write)] + [made(n, t) for n, t in zip(names[1:], texts[1:])]
    image, line, _ = image_of('A', files)
    items = ['%s.class=%s' % (n, spelled(f, t)) for n, f, t in zip(names, files, texts)]
    row(['link', '--main', 'A', *items], 0, image, line)
    status, out, ended = plainly(image)
    assert (status, out) == (0, b'A') and len(image) > 65536 + 12288
    row(['run', 'b=@'], status, out, ended.replace('\n', '\\n'))
    files = [files[3], files[0]]
    image, line, _ = image_of('A', files)
    row(['link', '--main', 'A', items[3], items[0]], 0, image, line)
    row(['link', '--main', 'A', items[0], items[1], 'C.class=' + spelled(made('C')[:-1], b''), items[3]], 2, b'', 'link: bad class file=2\\n')


def names():
    """names with blanks at both ends, beside files of the same name without them, and the other way round"""
    row(['run', '%20b%20' + HELLO, "+b='JOP", "+%20b='JOP", "+b%20='JOP"], 0, b'A', ENDED)
    row(['run', 'b' + HELLO, "+%20b%20='JOP", "+%20b='JOP", "+b%20='JOP"], 0, b'A', ENDED)
    row(['run', "%20b='JOP", '+b' + HELLO], 2, b'', 'bad image\\n')
    row(['run', "b%0a='JOP", '+b' + HELLO], 2, b'', 'bad image\\n')
    row(['run', '%20b', '+b' + HELLO], 4, b'', 'read fault\\n')
    row(['run', '%c3%a9%20b' + HELLO], 0, b'A', ENDED)
    row(['run', 'folder/b' + HELLO, "+b='JOP"], 0, b'A', ENDED)


def no_files():
    """what is no regular file, and what isn't there"""
    for item in ('b=folder', 'b=pipe', '/dev/null', '/dev/zero', '/dev/full', '.', 'b/c', 'b' * 300):
        row(['run', item], 4, b'', 'read fault\\n')
    row(['link', '--main', 'A', 'a=folder'], 4, b'', 'read fault\\n')
    row(['link', '--main', 'A', 'a=' + made('A').hex(), 'b=pipe'], 4, b'', 'read fault\\n')
    row(['asm', '/dev/null'], 4, b'', 'read fault\\n')
    row(['trace', 'b=folder'], 4, b'', 'read fault\\n')


def streams():
    """an input that comes a byte at a time, or not at all, and outputs that are slow, full, closed or given up by their reader"""
    rows = open(os.path.join(TABLES, 'programs.calls')).read().split('\n')
    echo = next(line for line in rows if line.startswith('link --main Echo '))
    data = bytes.fromhex(echo.split('=')[1])
    image, line, _ = image_of('Echo', [data])
    row(['link', '--main', 'Echo', 'Echo.class=' + data.hex()], 0, image, line)
    status, out, ended = plainly(image, ECHOED)
    ended = ended.replace('\n', '\\n')
    digits = ECHOED.hex()
    row(['<' + digits, 'run', 'b=@'], status, out, ended)
    row(['<slow:' + digits, 'run', 'b=@'], status, out, ended)
    row(['<slow:' + digits, '>slow', 'run', 'b=@'], status, out, ended)
    text = plainly(image, ECHOED, ['--trace'])[1]
    lines = text.decode().splitlines()
    assert len(text) > 8192
    shown = lines[:8] + lines[-8:]
    row(['<slow:' + digits, '>slow', 'trace', 'b=@'], status, text, ended, shown)
    row(['<folder', 'run', 'b=@'], 4, b'', 'read fault\\n')
    row(['>full', 'run', 'b=@'], 4, b'', 'write fault\\n')
    for stream in ('full', 'closed', 'gone'):
        for items in (['run', 'b' + HELLO], ['trace', 'b' + HELLO], ['asm', "t='nop"], ['link', '--main', 'A', 'a=' + made('A').hex()]):
            row(['>' + stream, *items], 4, b'', 'write fault\\n')
        row(['2>' + stream, 'run', 'b' + HELLO], 4, b'A', '')
        row(['2>' + stream, 'run', 'b'], 4, b'', '')
        row(['2>' + stream, 'run'], 4, b'', '')
        row(['>' + stream, '2>' + stream, 'run', 'b' + HELLO], 4, b'', '')
        row(['2>' + stream, 'asm', "t='nop"], 0, b'000 0000\n', '', ['000 0000'])
        row(['>' + stream, 'run', 'b=' + b'JOPB\0\1\0\0\0\0\0\0\0\1\xb1'.hex()], 0, b'', 'ended cycles=1 hits=0 misses=0\\n')
    row(['<closed', 'run', 'b' + HELLO], 0, b'A', ENDED)


statuses()
large_files()
names()
no_files()
streams()
with open(os.path.join(TABLES, 'edges.calls'), 'w') as file:
    file.write('# Written by ../expected/edges.py.\n' + '\n'.join(given) + '\n')
with open(os.path.join(TABLES, 'edges.wanted'), 'w') as file:
    file.write('\n'.join(wanted) + '\n')
