"""The activations of a run, found by search among its boundaries, and what `profile` puts of them.

The boundaries are those of the plain simulator (../plain.c), the bounds those of ../bounds; nothing of `jop` is used.
"""
import bisect
import os
import subprocess
import sys
import tempfile
from typing import NamedTuple

HERE = os.path.dirname(os.path.abspath(__file__))
sys.path[:0] = [os.path.join(HERE, part) for part in ('../bounds', '../graphs', '../../harness')]
import flow  # noqa: E402
import image_file  # noqa: E402
from costs import Timing  # noqa: E402
from study import Study, read_bounds  # noqa: E402
from rechecker.names import written  # noqa: E402

MICROCODE = os.path.join(HERE, '../../../examples/machine/microcode.asm')
READ, CYCLES = 'impdep1', 10**9
# The numbers of the classes whose objects can be thrown begin behind those of the types of arrays.
FIRST_CLASS = 8


class Here(NamedTuple):
    """what is seen at a boundary: the counts of cycles and of misses, how many frames there are, and the method, the place and the instruction of the top one"""

    clock: int
    misses: int
    frames: int
    method: str
    place: int
    step: str


class Machine(NamedTuple):
    """the settings of a run"""

    timing: Timing = Timing()
    stack: int = 1024
    memory: int = 262144
    cycles: int = CYCLES

    def options(self):
        """the words of the command that ask for it"""
        own = [('--stack', self.stack, 1024), ('--memory', self.memory, 262144), ('--cycles', self.cycles, CYCLES)]
        return self.timing.options() + [word for name, value, usual in own if value != usual for word in (name, str(value))]

    def settings(self):
        """the words by which the simulator is told of it"""
        timing = self.timing
        return [str(n) for n in (self.stack, self.memory, timing.blocks, timing.block_words, timing.read, timing.write, self.cycles)]


class Run(NamedTuple):
    """the status and the line of a run, what is seen at its boundaries, and the bytes that it puts"""

    status: int
    line: str
    heres: list
    put: bytes


def here_of(line):
    front, place, step, frames, _, misses = line.rsplit(' ', 5)
    clock, method = front.split(' ', 1)
    return Here(int(clock), int(misses.partition('=')[2]), int(frames.partition('=')[2]), written(method.encode()), int(place), step)


class Simulated:
    """a program whose runs are simulated"""

    def __init__(self, plain, main, files):
        self.plain, self.main, self.files = plain, main, files
        self.program = flow.Program(main, files)
        words = [flow.expected_image.word(each) for _, region in self.program.image.regions() for each in region]
        self.words = len(words)
        self.data = image_file.ImageFile(main.encode(), words, files).data()

    def linked_line(self):
        """what `link` tells of it"""
        return 'linked classes=%d methods=%d words=%d bytes=%d' % (len(self.program.classes), len(self.program.coded), self.words, len(self.data))

    def run(self, given, machine, fails=None):
        """the run with this input, of which the read of this number fails, if one is said"""
        with tempfile.NamedTemporaryFile() as file:
            file.write(self.data)
            file.flush()
            words = [self.plain, '--misses', MICROCODE, file.name, *machine.settings()]
            ran = subprocess.run(words, input=given, capture_output=True, check=False)
        lines = ran.stdout.decode().splitlines()
        heres = [here_of(line) for line in lines if not line.startswith('write ')]
        reads = [place for place, here in enumerate(heres) if here.step == READ and here.clock < machine.cycles]
        if fails is not None and fails < len(reads):
            return Run(4, 'read fault', heres[:reads[fails] + 1], put_before(lines, reads[fails] + 1))
        return Run(ran.returncode, self.with_name(ran.stderr.decode().strip()), heres, put_before(lines, len(heres)))

    def with_name(self, line):
        """the line, with the name of the class whose number stands in it"""
        words = line.split()
        if words[0] == 'uncaught':
            words[1] = self.program.classes[int(words[1]) - FIRST_CLASS].name.decode()
        return ' '.join(words)


def put_before(lines, count):
    """the bytes that are put in the first steps, so many"""
    found, steps = bytearray(), 0
    for line in lines:
        if line.startswith('write '):
            found += bytes.fromhex(line.split(' ')[1]) if steps <= count else b''
        else:
            steps += 1
    return bytes(found)


def activations(heres):
    """where each activation that ends begins and ends, and its method

    One begins between two boundaries, if a frame is made there; it ends at the first later boundary with as many frames as there are where it began.
    """
    places = {}
    for place, here in enumerate(heres):
        places.setdefault(here.frames, []).append(place)
    for place, (begun, first) in enumerate(zip(heres, heres[1:])):
        if begun.frames < first.frames:
            same = places[begun.frames]
            later = bisect.bisect_right(same, place + 1)
            if later < len(same):
                yield begun, first.method, heres[same[later]]


def counts(heres):
    """by method, how many activations ended, the greatest and the sum of their cycles, and the sum of their misses"""
    found = {}
    for begun, method, ended in activations(heres):
        cycles, misses = ended.clock - begun.clock, ended.misses - begun.misses
        count, greatest, total, missed = found.get(method, (0, 0, 0, 0))
        found[method] = count + 1, max(greatest, cycles), total + cycles, missed + misses
    return found


def bound_word(study, m):
    """the number that `bound` prints of a method, `never`, or `none` where it refuses"""
    if study.cause_of(m) is not None:
        return 'none'
    printed = study.printed(m)
    return 'never' if printed is None else str(printed)


def lines(study, heres):
    """the lines of a profile, methods rising"""
    found = counts(heres)
    return ['%s count=%d greatest=%d total=%d misses=%d bound=%s' % (name, *found[name], bound_word(study, m))
            for m, name in enumerate(study.program.names) if name in found]


def refused(simulated, machine, text):
    """why the program isn't run: a code that doesn't fit, a memory that is too small, or a text that is none"""
    too_long = Study(simulated.program, machine.timing, {}).too_long()
    if too_long is not None:
        return 'method too long %s blocks=%d limit=%d' % (simulated.program.names[too_long[0]], too_long[1], machine.timing.blocks)
    if simulated.words > machine.memory:
        return 'memory too small words=%d given=%d' % (simulated.words, machine.memory)
    bounds = read_bounds(text)
    return bounds if isinstance(bounds, str) else None


def profiled(simulated, machine, given, text, fails=None):
    """the status and the line of `profile`, and the lines that it puts"""
    why = refused(simulated, machine, text)
    if why is not None:
        return 2, why, []
    run = simulated.run(given, machine, fails)
    return run.status, run.line, lines(Study(simulated.program, machine.timing, read_bounds(text)), run.heres)
