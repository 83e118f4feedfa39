#!/usr/bin/env python3
"""work.py PLAIN MICROCODE: writes tests/tables/work: the line of `work` for programs of several sizes, and what refuses its words.

The class is written here from the words of docs/commands.md, laid out by images/expected_image.py and run by PLAIN, the plain simulator, over the text MICROCODE; the bound of its main is that of
bounds/study.py. All else was worked out by hand.
"""
import os
import struct
import subprocess
import sys
import tempfile

HERE = os.path.dirname(os.path.abspath(__file__))
sys.path[:0] = [os.path.join(HERE, part) for part in ('images', 'graphs', 'bounds', '../harness')]
import expected_image  # noqa: E402
import flow  # noqa: E402
from costs import Timing  # noqa: E402
from kind import sum_of  # noqa: E402
from made import MAIN, ClassFile  # noqa: E402
from study import Study, read_bounds  # noqa: E402

TABLES = os.path.join(HERE, '../tables')
PUBLIC_STATIC, INT_TO_INT = 9, '(I)I'
# The usual settings: words on chip and of memory, blocks and their words, waits of reads and writes, cycles.
USUAL = ['1024', '262144', '16', '64', '1', '2', '1000000000']
INVOKESTATIC, IRETURN, RETURN, SIPUSH = b'\xb8', b'\xac', b'\xb1', b'\x11'


def turns(k):
    """how often the loop of method k goes round"""
    return k % 8 + 1


def work(n):
    """the class file of n methods, and main"""
    made = ClassFile('W', flags=0x21)

    def call(owner, name, descriptor):
        return INVOKESTATIC + struct.pack('>H', made.member(10, owner, name, descriptor))
    for k in range(1, n + 1):
        # for (i = 0; i < turns; i++) sum += i; then the method before this one, unless this is the first of ten
        code = bytes.fromhex('033c1b10%02xa2000d1a1b603b840101a7fff31a' % turns(k))
        code += (call('W', 'm%d' % (k - 1), INT_TO_INT) if k % 10 != 1 else b'') + IRETURN
        frames = [b'\xfc\0\2\1', bytes([18 - 2 - 1])]
        made.method(PUBLIC_STATIC, 'm%d' % k, INT_TO_INT, (2, 2, code, [], frames))
    calls = b''.join(call('W', 'm%d' % k, INT_TO_INT) for k in range(1, n + 1) if k % 10 == 0 or k == n)
    code = SIPUSH + struct.pack('>H', n) + calls + call('jop/Io', 'write', '(I)V') + RETURN
    made.method(PUBLIC_STATIC, 'main', MAIN, (1, 1, code, [], []))
    return made.data()


def ran(data):
    """the output of the class by the plain simulator, and what it tells of the run"""
    image = expected_image.link(b'W', [data])
    words = b''.join(struct.pack('>I', expected_image.word(each)) for _, region in image.regions() for each in region)
    with tempfile.NamedTemporaryFile() as file:
        file.write(b'JOPI' + struct.pack('>HH', 1, 1) + b'W' + struct.pack('>II', len(words) // 4, 1) + words + struct.pack('>I', len(data)) + data)
        file.flush()
        plain = subprocess.run([sys.argv[1], sys.argv[2], file.name, *USUAL], stdin=subprocess.DEVNULL, capture_output=True)
    ended, counts = plain.stderr.decode().strip().split(' ', 1)
    assert (plain.returncode, ended) == (0, 'ended')
    return plain.stdout, counts


def line_of(n):
    data = work(n)
    output, counts = ran(data)
    bounds = ''.join('W.m%d%s 2 loop<=%d\n' % (k, INT_TO_INT, turns(k)) for k in range(1, n + 1))
    study = Study(flow.Program('W', [data]), Timing(), read_bounds(bounds.encode()))
    bound = study.printed(study.root('W.main' + MAIN))
    assert int(counts.split(' ')[0].split('=')[1]) <= bound
    return 'work n=%d output=%s %s bound=%d\n' % (n, ' '.join(map(str, output)), counts, bound)


def told(out):
    return '%d bytes, sum %08x' % (len(out), sum_of(out)) if len(out) > 64 else out.hex() + '.'


def main():
    given, wanted = [], []

    def row(words, status, out, err, streams=()):
        given.append(' '.join([*streams, *words]))
        wanted.append('%s -> %d, out %s' % (' '.join([*words, *streams]), status, told(out)))
        wanted.append('  "%s"' % err)
    for n in (1, 2, 9, 10, 11, 100, 999, 1000, 1000):
        row(['work', str(n)], 0, line_of(n).encode(), '')
    for word in ('0', '1001', '01', '+1', '4294967297', 'x', '--stack'):
        row(['work', word], 2, b'', 'usage: word 1\\n')
    row(['work'], 2, b'', 'usage: word 1\\n')
    row(['work', '1', '2'], 2, b'', 'usage: word 2\\n')
    row(['work', '--stack', '256', '1'], 2, b'', 'usage: word 1\\n')
    for stream in ('full', 'closed', 'gone'):
        row(['work', '10'], 4, b'', 'write fault\\n', ['>' + stream])
    row(['work', '10'], 0, line_of(10).encode(), '', ['>slow'])
    row(['work', '10'], 0, line_of(10).encode(), '', ['2>closed'])
    with open(os.path.join(TABLES, 'work.calls'), 'w') as file:
        file.write(''.join(line + '\n' for line in given))
    with open(os.path.join(TABLES, 'work.wanted'), 'w') as file:
        file.write(''.join(line + '\n' for line in wanted))


if __name__ == '__main__':
    sys.setrecursionlimit(100000)
    main()
