"""Circuits beside the machine: the programs that are run, the text of a circuit and its simulator, and what differs."""
import glob
import hashlib
import os
import re
import shutil
import subprocess
import sys

HERE = os.path.dirname(os.path.abspath(__file__))
TOP = os.path.join(HERE, '../..')
sys.path.insert(0, os.path.join(TOP, 'tests/harness'))

import calls  # noqa: E402
from caller import Caller  # noqa: E402
from table import rows_of  # noqa: E402

# The on-chip words, the words of memory, the waits of a read and of a write, the blocks and the words of a block.
SETTINGS = {
    'default': (1024, 262144, 1, 2, 16, 64),
    'one block': (256, 4096, 1, 2, 1, 1024),
    'ring of 60': (512, 5000, 0, 0, 12, 5),
    'words of 8': (1024, 65536, 3, 5, 32, 8),
    'no waits': (256, 16384, 0, 0, 7, 32),
    'long waits': (1024, 40000, 63, 40, 3, 100),
}
# Those of the circuit in which faults are planted.
PLANTED = (512, 50000, 3, 5, 12, 5)
OPTIONS = ('--stack', '--memory', '--read', '--write', '--blocks', '--block-words')
INPUT = bytes.fromhex('010a141e286480ff00007f0368656c6c6f20ff0020776f726c64')
# How `run` says that it ended, and what the circuit puts then.
ENDS = {'ended': 0b01, 'uncaught': 0b10, 'spent': 0}


def numbers_of(setting):
    """the numbers of a setting"""
    return PLANTED if setting.startswith('planted') else SETTINGS[setting]


def linked_programs():
    """the rows of the tables that link a program, each once, with the name of its main class"""
    rows = {}
    for table in sorted(glob.glob(os.path.join(TOP, 'tests/tables/*.calls'))):
        for _, line in rows_of(table):
            if line.startswith('link ') and line not in rows:
                rows[line] = None
    return list(rows)


def images(jop, room):
    """the name and the image of each program that links; no image twice"""
    found = {}
    for number, line in enumerate(linked_programs()):
        folder = os.path.join(room, 'link%d' % number)
        os.makedirs(folder)
        answer = calls.Call(line).made(Caller(jop, folder), b'')
        if answer.status == 0 and answer.out not in found:
            found[answer.out] = '%s %d' % (calls.Call(line).words[2], len(found))
    folder = os.path.join(TOP, 'examples/controller/classes')
    files = [open(os.path.join(folder, name), 'rb').read() for name in sorted(os.listdir(folder))]
    found[Caller(jop, room).link('Main', files).out] = 'controller'
    found[open(os.path.join(TOP, 'examples/hello.jopb'), 'rb').read()] = 'bare'
    return [(name, image) for image, name in found.items()]


class Text:
    """the text of a circuit, whose first words stand apart: those of the registers, and those of each memory"""

    def __init__(self, text):
        self.registers, self.memories, lines = [], {}, []
        for line in text.split('\n'):
            if line.startswith('        m'):
                name, _, word = line.strip(' ;').partition('[')
                self.memories.setdefault(name, []).append(int(word.rpartition("'d")[2]))
            elif line.startswith('    reg [') and ' = ' in line:
                before, _, word = line.strip(';').rpartition("'d")
                self.registers.append(int(word))
                lines.append(before + "'d0;")
            elif line.startswith('        for ('):
                before, _, after = line.partition(' = ')
                lines.append(before + ' = 0;' + after.partition(';')[2])
            else:
                lines.append(line)
        self.rest = '\n'.join(lines)

    def reading(self):
        """the text, with first words that are read from files"""
        sets = ['r%d = firsts[%d];' % (k, k) for k in range(len(self.registers))]
        reads = ['$readmemh("%s", %s);' % (name, name) for name in self.names()]
        body = ['    reg [63:0] firsts [0:%d];' % (len(self.registers) - 1), '    initial begin', '        $readmemh("firsts", firsts);']
        body += ['        ' + line for line in sets + reads] + ['    end', 'endmodule', '']
        return self.rest.replace('endmodule\n', '\n'.join(body))

    def names(self):
        """those of the memories"""
        return sorted({*re.findall(r'^    reg \[\d+:0\] (m\d+) ', self.rest, re.M)})

    def put(self, folder):
        """the files of the first words; a memory that has none begins with 0"""
        for name, words in [('firsts', self.registers), *((name, self.memories.get(name, [0])) for name in self.names())]:
            with open(os.path.join(folder, name), 'w') as file:
                file.write(''.join('%x\n' % word for word in words))


# What a block RAM gives at a place that is written as it is read, and what it begins with, is any word.
UNKNOWN = ('+verilator+rand+reset+2', '+verilator+seed+7')
# The registers that top.cpp reads.
SEEN = (0, 1, 2, 3, 6, 10, 11, 24, 25)
TOOL = ['verilator', '--cc', '--exe', '--top-module', 'jop', '-O3', '--x-assign', 'unique', '-Wno-fatal', '-Wno-lint', '-CFLAGS', '-O1', '--Mdir', 'made']


def kept(text, folder):
    """where the simulator of a text stands in a folder of such, if there is one"""
    return folder and os.path.join(folder, hashlib.sha256((text.reading() + open(os.path.join(HERE, 'top.cpp')).read()).encode()).hexdigest()[:16])


def simulator(text, folder):
    """the program that simulates the circuits of a setting"""
    os.makedirs(os.path.join(folder, 'made'))
    with open(os.path.join(folder, 'jop.v'), 'w') as file:
        file.write(text.reading())
    with open(os.path.join(folder, 'seen.vlt'), 'w') as file:
        file.write('`verilator_config\n' + ''.join('public_flat_rd -module "jop" -var "r%d"\n' % k for k in SEEN))
    made = subprocess.run([*TOOL, 'seen.vlt', 'jop.v', os.path.join(HERE, 'top.cpp')], cwd=folder, capture_output=True, text=True)
    if made.returncode == 0:
        made = subprocess.run(['make', '-s', '-j', '1', '-C', 'made', '-f', 'Vjop.mk', 'OPT_FAST=-O1', 'OPT_SLOW=-O0', 'OPT_GLOBAL=-O0'], cwd=folder, capture_output=True, text=True)
    if made.returncode:
        raise RuntimeError(made.stdout + made.stderr)
    return os.path.join(folder, 'made/Vjop')


class Lockstep:
    """the circuits and the runs of a room"""

    def __init__(self, asked, room):
        self.asked, self.room = asked, room

    def folder(self, setting):
        return os.path.join(self.room, setting.replace(' ', '_'))

    def options(self, setting):
        """the words of the command line that say a setting"""
        return [word for pair in zip(OPTIONS, map(str, numbers_of(setting))) for word in pair]

    def text(self, setting, program):
        """the text of a program's circuit, or None where it doesn't fit"""
        name, image = program
        file = os.path.join(self.room, 'image of %s, %s' % (name.replace('/', '.'), setting))
        with open(file, 'wb') as out:
            out.write(image)
        made = subprocess.run([self.asked.jop, 'rtl', *self.options(setting), file], capture_output=True, text=True)
        if made.returncode not in (0, 2) or made.returncode == 0 and made.stderr:
            raise RuntimeError('%s: rtl: status %d: %s' % (name, made.returncode, made.stderr))
        return Text(made.stdout) if made.returncode == 0 else None

    def texts(self, setting, programs):
        """the text of each program's circuit, or None where it doesn't fit"""
        return [self.text(setting, program) for program in programs]

    def compared(self, setting, name, image, text, program):
        """what differs in a run"""
        folder = os.path.join(self.folder(setting), name)
        os.makedirs(folder)
        text.put(folder)
        for file, data in (('image', image), ('input', INPUT)):
            with open(os.path.join(folder, file), 'wb') as out:
                out.write(data)
        trace = subprocess.Popen([self.asked.jop, 'trace', '--micro', *self.options(setting), '--cycles', str(self.asked.cycles), 'image'], cwd=folder,
                                 stdin=open(os.path.join(folder, 'input'), 'rb'), stdout=subprocess.PIPE, stderr=subprocess.PIPE)
        ran = subprocess.run([program, 'input', *UNKNOWN], cwd=folder, stdin=trace.stdout, capture_output=True, text=True)
        trace.stdout.close()
        said = trace.stderr.read().decode()
        trace.stderr.close()
        trace.wait()
        shutil.rmtree(folder)
        if ran.returncode:
            return ran.stdout.strip()
        wanted = wanted_end(said)
        return '' if ran.stdout.strip() == wanted else 'wanted %s (%s), came %s' % (wanted, said.strip(), ran.stdout.strip())

    def simulator(self, setting, text):
        """the program that simulates the circuits of a setting, kept where the command line says"""
        place = kept(text, self.asked.keep)
        if place and os.path.exists(place):
            return place
        program = simulator(text, self.folder(setting))
        return shutil.copy2(program, place) if place else program

    def prepared(self, setting, programs):
        """the texts of a setting, and the program that simulates them; none where they differ in more than first words"""
        texts = self.texts(setting, programs)
        fitting = [text for text in texts if text]
        return texts, self.simulator(setting, fitting[0]) if len({text.rest for text in fitting}) == 1 else None

    def cases(self, setting, programs, made, pool):
        """the name and what differs of each case of a setting that was prepared"""
        texts, program = made
        if not program:
            return [('%s: one circuit but for first words' % setting, 'there are several')]
        runs = [(name, image, text) for (name, image), text in zip(programs, texts) if text]
        faults = pool.map(lambda run: self.compared(setting, *run, program), runs)
        return [('%s: %s' % (setting, run[0]), fault) for run, fault in zip(runs, faults)]


def wanted_end(said):
    """what the circuit is at the end, by the line of the run"""
    numbers = dict(re.findall(r'(cycles|hits|misses)=(\d+)', said))
    return 'halted=%d hits=%s misses=%s clocks=%s' % (ENDS[said.split(' ')[0]], *(numbers.get(word) for word in ('hits', 'misses', 'cycles')))
