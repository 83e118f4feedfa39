"""The programs and the instructions of two tables, run once more by others: by the plain simulator of the machine, and on a Java virtual machine."""
import os
import shutil
import subprocess

import calls
from bytecode import Assembler
from class_files import Reader
from table import Case

HERE = os.path.dirname(os.path.abspath(__file__))
TOP = os.path.join(HERE, '../..')
MICROCODE = os.path.join(TOP, 'examples/machine/microcode.asm')
SETTINGS = ['--stack', '--memory', '--blocks', '--block-words', '--read', '--write', '--cycles']
DEFAULTS = ['1024', '262144', '16', '64', '1', '2', '1000000000']
SECONDS = 600


def cases_by_others(cases, room):
    """the cases that others run too, and a line for each tool that is missing"""
    run = [case for case in cases if case.name.startswith('programs:') and is_run(case)]
    rows = [case for case in cases if case.name.startswith('instructions:')]
    found, missing = [], []
    for tools, other, make in ((['gcc'], 'the plain simulator', plain_cases), (['java', 'javac'], 'a Java virtual machine', java_cases)):
        lost = [tool for tool in tools if not shutil.which(tool)]
        if lost:
            missing.append('tests: %s is missing, so nothing is run by %s' % (' and '.join(lost), other))
        elif run or rows:
            found += make(run, rows, room)
    return found, missing


def is_run(case):
    """whether a case runs the image that it links, and nothing is refused"""
    return runs_in(case) > 0 and case.rows[0].startswith('link ') and not any(' -> 2,' in line for line in case.wanted)


def plain_cases(cases, rows, room):
    """the cases for the plain simulator, which is compiled first"""
    if not cases:
        return []
    program = os.path.join(room, 'plain')
    subprocess.run(['gcc', '-O2', '-o', program, os.path.join(HERE, '../expected/plain.c')], check=True)
    return [Case('plain ' + case.name, case.rows, ['as by jop'] * runs_in(case), Plain(program)) for case in cases]


def java_cases(cases, rows, room):
    """the cases for a Java virtual machine; programs by hand, all of which have the name A, are none of them"""
    classes = compiled(room, 'io', os.path.join(TOP, 'examples/controller/jop/Io.java'))
    run = [case for case in cases if '--main A ' not in case.rows[0]]
    found = [Case('java ' + case.name, case.rows, ['as by jop'] * runs_in(case), Java(classes)) for case in run]
    if rows:
        folder = os.path.join(HERE, '../expected/java')
        classes = compiled(room, 'rows', *(os.path.join(folder, name) for name in ('Rows.java', 'jop/Io.java')))
        found.append(Case('java instructions', [case.rows[0] for case in rows], [line for case in rows for line in case.wanted], JavaRows(classes)))
    return found


def compiled(room, name, *sources):
    """the folder into which javac puts the classes of these sources"""
    classes = os.path.join(room, name)
    subprocess.run(['javac', '--release', '8', '-nowarn', '-Xlint:-options', '-d', classes, *sources], check=True)
    return classes


def runs_in(case):
    return sum(calls.Call(row).command() == 'run' for row in case.rows)


class Other:
    """another program that runs what a case runs; what it does is told against what `jop` does"""

    def answer(self, caller, rows):
        link = calls.Call(rows[0])
        image = link.made(caller, b'').out
        for row in rows[1:]:
            call = calls.Call(row)
            if call.command() == 'run':
                yield from self.compared(caller, link, call, image)

    def compared(self, caller, link, call, image):
        answer = call.made(caller, image)
        other = self.run(caller, link, call, image)
        mine = self.seen(answer)
        yield 'as by jop' if other == mine else 'otherwise: %r in place of %r' % (other, mine)


class Plain(Other):
    """the plain simulator: the status, the bytes that are put out, and the cycles, hits and misses"""

    def __init__(self, program):
        self.program = program

    def run(self, caller, link, call, image):
        caller.put('plain.jopi', image)
        given = dict(zip(call.words[1:-1:2], call.words[2:-1:2]))
        settings = [given.get(name, default) for name, default in zip(SETTINGS, DEFAULTS)]
        words = [self.program, MICROCODE, 'plain.jopi', *settings]
        ran = subprocess.run(words, input=call.streams.given, capture_output=True, cwd=caller.folder, timeout=SECONDS)
        return ran.returncode, ran.stdout, ran.stderr.split()[-3:]

    def seen(self, answer):
        return answer.status, answer.out, answer.err.split()[-3:]


class Java(Other):
    """a Java virtual machine: the bytes that are put out"""

    def __init__(self, classes):
        self.classes = classes

    def run(self, caller, link, call, image):
        for word, value in link.files:
            data = calls.data_of(value, b'')
            caller.put('classes/%s.class' % class_name(data), data)
        words = ['java', '-Xmx64m', '-XX:+UseSerialGC', '-XX:TieredStopAtLevel=1', '-cp', 'classes:' + self.classes, link.words[2]]
        return subprocess.run(words, input=call.streams.given, capture_output=True, cwd=caller.folder, timeout=SECONDS).stdout

    def seen(self, answer):
        return answer.out


class JavaRows:
    """a Java virtual machine that runs the codes of all rows: what each puts out, and how it ends"""

    def __init__(self, classes):
        self.classes = classes

    def answer(self, caller, rows):
        for number, row in enumerate(rows):
            caller.put('%d/A.class' % number, Assembler().assembled(row.split(' ')[1:]))
        words = ['java', '-Xmx64m', '-XX:+UseSerialGC', '-XX:TieredStopAtLevel=1', '-cp', self.classes, 'Rows', caller.folder, str(len(rows))]
        ran = subprocess.run(words, capture_output=True, timeout=SECONDS)
        for row, line in zip(rows, ran.stdout.decode().splitlines()):
            yield '%s: %s' % (row.split(' ')[0], line)


def class_name(data):
    """the name of the class of a class file"""
    reader = Reader(data)
    texts, classes = reader.pool()
    reader.skip(2)
    return texts[classes[reader.number(2)]]
