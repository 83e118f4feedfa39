#!/usr/bin/env python3
"""no_memory.py [COMMAND..]: refuses the allocations of each command one by one, and looks at what it answers then.

`refuse.c` is compiled by gcc and loaded before the program; where there is no gcc, a line says so. Each command gets a small program of javac that reads its input and writes it out, or one
that is refused. The answer has to be the good one, or status 5 with nothing on standard output: with the line `no memory`, or without it where the words had no memory. For each command stand
there how many allocations it makes, how many of them were refused with which answer, and how many of them come behind the start of its run. The status is 1 where another answer came.
"""
import collections
import os
import shutil
import subprocess
import sys
from concurrent.futures import ThreadPoolExecutor

from timing import HERE, JOP, folder, put

sys.path[:0] = [os.path.join(HERE, '../tests/expected/bounds'), os.path.join(HERE, '../tests/expected/graphs')]
import analysis  # noqa: E402
import flow  # noqa: E402

SECONDS = 60
GIVEN = b'hello \xff\0 world'
ASKED = ['--method', 'Echo.main([Ljava/lang/String;)V']
EXAMPLES = os.path.join(HERE, '../examples')
SLOTS = ['slots.table', 'slots.bounds', *(name + '.class' for name in ('Slots', 'Gain', 'Mean', 'Overload', 'Stage', 'Weights'))]
MICROCODE = b'again: .entry 3\n.const 0 -1\n.raise\nnop opd ; a byte\n.turns 2\njmp again\n'

# The commands, and those with the same work up to the start of the run.
COMMANDS = {
    'link': ['link', '--main', 'Echo', 'Echo.class'],
    'run': ['run', '--cycles', '100000', 'image'],
    'run of a bare image': ['run', '--cycles', '100000', 'bare'],
    'trace': ['trace', '--cycles', '100000', 'image'],
    'trace --micro': ['trace', '--micro', '--cycles', '3000', 'image'],
    'asm': ['asm', 'text'],
    'bound': ['bound', *ASKED, 'image', 'bounds'],
    'bound --all': ['bound', '--all', 'image', 'bounds'],
    'bound --shapes': ['bound', '--shapes', *ASKED, 'image', 'bounds'],
    'report': ['report', *ASKED, 'image', 'bounds'],
    'check': ['check', 'image', 'bounds', 'certificate'],
    'loops': ['loops', 'image'],
    'loops --further': ['loops', '--further', 'image'],
    'headers': ['headers', 'image', 'bounds'],
    'memory': ['memory', 'image', 'bounds', 'none'],
    'profile': ['profile', '--cycles', '100000', 'image', 'bounds'],
    'profile of a bare image': ['profile', '--cycles', '100000', 'bare', 'none'],
    'plan': ['plan', '--rounds', '2', *SLOTS],
    'cycle': ['cycle', '--rounds', '2', '--cycles', '100000', SLOTS[0], *SLOTS[2:]],
    'work': ['work', '2'],
    'link, refused': ['link', '--main', 'Echo', 'cut.class'],
    'run, another word': ['run', 'differs'],
    'trace, no image': ['trace', 'cut'],
    'bound, no line': ['bound', *ASKED, 'image', 'none'],
    'report, no line': ['report', *ASKED, 'image', 'none'],
    'check, another number': ['check', 'image', 'bounds', 'changed'],
    'loops, another word': ['loops', 'differs'],
    'headers, no loop': ['headers', 'image', 'stray'],
    'memory, bad lengths': ['memory', 'image', 'bounds', 'stray'],
    'profile, bad bounds': ['profile', 'image', 'stray'],
    'plan, no slot': ['plan', '--rounds', '2', 'none', *SLOTS[1:]],
    'plan, a slot without a method': ['plan', '--rounds', '2', 'slots', *SLOTS[1:]],
    'cycle, bad table': ['cycle', '--rounds', '2', 'stray', *SLOTS[2:]],
    'asm, refused': ['asm', 'bounds'],
    'usage': ['link', '--main', 'Echo'],
    '--help': ['--help'],
}
STARTS = {'run': ['run', '--cycles', '0', 'image'], 'run of a bare image': ['run', '--cycles', '0', 'bare'], 'trace': ['trace', '--cycles', '0', 'image'],
          'trace --micro': ['trace', '--micro', '--cycles', '0', 'image']}


class Refuser:
    """calls the program with an allocation that is refused"""

    def __init__(self, room):
        self.room, self.library = room, os.path.join(room, 'refuse.so')
        subprocess.run(['gcc', '-O2', '-shared', '-fPIC', '-o', self.library, os.path.join(HERE, 'refuse.c')], check=True)

    def answer(self, words, refused=None):
        """the status, the output and the line of a call; none of its allocations is refused, or one"""
        variables = {'LD_PRELOAD': self.library}
        variables.update({'ALLOCATIONS': os.path.join(self.room, 'allocations')} if refused is None else {'REFUSED': str(refused)})
        ran = subprocess.run([os.path.abspath(JOP), *words], input=GIVEN, capture_output=True, cwd=self.room, env=variables, timeout=SECONDS)
        return ran.returncode, ran.stdout, ran.stderr

    def allocations(self, words):
        """the good answer, and how many allocations it takes"""
        good = self.answer(words)
        with open(os.path.join(self.room, 'allocations')) as file:
            return good, int(file.read())

    def kinds(self, words, good, count):
        """what comes where each of so many allocations is refused, and no other, and one behind the last"""
        with ThreadPoolExecutor(os.cpu_count()) as pool:
            return [kind_of(answer, good) for answer in pool.map(lambda n: self.answer(words, n), range(count + 1))]


def kind_of(answer, good):
    """what an answer is"""
    named = {good: 'good', (5, b'', b'no memory\n'): 'no memory', (5, b'', b''): 'no memory for the words'}
    return named.get(answer, 'ANOTHER: status %d, %d bytes, %r' % (answer[0], len(answer[1]), answer[2][-100:]))


def make_files(room, refuser):
    """writes the files that the commands name"""
    _, main, files = analysis.program_of('program Echo Echo of programs.calls link --main Echo')
    program = flow.Program(main, files)
    put(room, 'Echo.class', files[0])
    put(room, 'cut.class', files[0][:-1])
    put(room, 'text', MICROCODE)
    put(room, 'bare', b'JOPB\0\1\0\0\0\1\0\0\0\4\x10A\xff\xb1')
    loops = [(name, place) for m, name in enumerate(program.names) for place, _ in flow.Graph(program.body(m)).loops() or {}]
    put(room, 'bounds', ''.join('%s %d loop<=14\n' % each for each in loops).encode())
    put(room, 'none', b'')
    put(room, 'stray', b'Echo.java:1 loop<=2\n')
    put(room, 'slots', b'slot Slots.none()V 1000\n')
    for name in SLOTS:
        part = '' if not name.endswith('.class') else 'executive/classes' if name == 'Slots.class' else 'controller/classes'
        shutil.copy(os.path.join(EXAMPLES, part or 'executive', name), os.path.join(room, name))
    image = refuser.answer(COMMANDS['link'])[1]
    put(room, 'image', image)
    put(room, 'cut', image[:-1])
    put(room, 'differs', image[:30] + bytes([image[30] ^ 1]) + image[31:])
    certificate = refuser.answer(COMMANDS['bound'])[1]
    put(room, 'certificate', certificate)
    put(room, 'changed', certificate[:-2] + bytes([certificate[-2] ^ 1]) + certificate[-1:])


def told(refuser, name):
    """tries a command, tells what came, and gives whether all answers were good ones"""
    good, count = refuser.allocations(COMMANDS[name])
    kinds = refuser.kinds(COMMANDS[name], good, count)
    numbers = ', '.join('%d %s' % (n, kind) for kind, n in collections.Counter(kinds[:-1]).items())
    behind = ', %d behind the start' % (count - refuser.allocations(STARTS[name])[1]) if name in STARTS else ''
    line = good[2].decode().strip() or '%d bytes' % len(good[1])
    print('%-22s %5d allocations%s: %s (status %d, %s)' % (name, count, behind, numbers, good[0], line), flush=True)
    return kinds[-1] == 'good' and not any(kind.startswith('ANOTHER') for kind in kinds)


def main():
    if not shutil.which('gcc'):
        print('no_memory: gcc is missing')
        return 1
    with folder() as room:
        refuser = Refuser(room)
        make_files(room, refuser)
        results = [told(refuser, name) for name in sys.argv[1:] or COMMANDS]
    print('no other answer' if all(results) else 'another answer came')
    return 0 if all(results) else 1


if __name__ == '__main__':
    sys.exit(main())
