#!/usr/bin/env python3
"""damaged.py PLAIN MICROCODE: writes tests/tables/damage: each command with each damage of a file, and what it has to answer.

What is no image, no bounds, no certificate and no text of microcode follows from the grammars of docs/formats.md: of images here, of bounds and certificates by bounds/, of microcode by
microcode.py. Bare images that run were run by PLAIN, the plain simulator, over the text MICROCODE; the words of linked images are those of images/expected_image.py. A class file that can't
be taken apart (harness/damage.py) is none; of others it is only said that they are refused, or linked to the words of that program.
"""
import json
import os
import struct
import subprocess
import sys
import tempfile

HERE = os.path.dirname(os.path.abspath(__file__))
sys.dont_write_bytecode = True
sys.path[:0] = [os.path.join(HERE, each) for each in ('bounds', 'graphs', 'images', 'headers', '../harness')]
import damage  # noqa: E402
import flow  # noqa: E402
import hand_headers  # noqa: E402
import image_file  # noqa: E402
import microcode  # noqa: E402
import programs  # noqa: E402
from calls import Call, data_of, out_text  # noqa: E402
from certificate import Maker, answer as checked  # noqa: E402
from classfile import main_class  # noqa: E402
from costs import Timing  # noqa: E402
from headers import Headers  # noqa: E402
from study import Study, read_bounds  # noqa: E402
from tables import all_bounds  # noqa: E402

TABLES = os.path.join(HERE, '../tables')
SETTINGS = ['1024', '262144', '16', '64', '1', '2', '1000000000']
# JOPB, version 1, 1 local, 2 operands: bipush 65, istore_0, iload_0, dup, iadd, impdep2, return
BARE = b'JOPB\0\1\0\1\0\2\0\0\0\x08\x10A\x3b\x1a\x59\x60\xff\xb1'
MICROCODE = b'again: nop opd ; a byte\n.const 0 -1\n.entry 96\nadd nxt\nx: .raise\n.turns pairs\nbz again\nldi 31\njmp x2\nx2: pop\n'


class Table:
    """rows, with what is wanted"""

    def __init__(self):
        self.rows, self.wanted, self.last, self.calls = ['# Written by ../expected/damaged.py.'], [], b'', 0

    def call(self, row, status, out, err):
        """a call without damage"""
        call = Call(row)
        self.rows.append(row)
        self.wanted += ['%s -> %d, out %s' % (' '.join(call.words), status, out_text(out)), '  ' + json.dumps(err)]
        if call.command() == 'asm':
            self.wanted += ['  ' + line for line in out.decode().splitlines()]
        if call.command() == 'link':
            self.last = out

    def each(self, row, way, answer):
        """a call over each damage of a file; what it answers comes of the damaged file, as status, output and line"""
        name = way.split(':')[0]
        call = Call(row)
        made = damage.damages(data_of(dict(call.files)[name], self.last), way.split(':', 1)[1])
        found = []
        for data in made:
            said = answer(data)
            found.append(said if isinstance(said, str) else damage.shown(said[0], said[1], said[2].encode()))
        self.rows.append('%s !%s' % (row, way))
        self.wanted += ['%s !%s -> %d' % (' '.join(call.words), way, len(found)), *damage.runs_of(found)]
        self.calls += len(found)


def spelled(data):
    return data.hex()


def all_ways(data, *values):
    """each front; without each byte, and with each byte twice; bytes put in; bytes changed"""
    return ['cut', 'without', 'twice=01', *('with=' + each for each in values), 'xor=01', 'xor=80', 'xor=ff']


# ---- bare images


# what the opcodes of bare images take, leave, and name: the least number of locals
SHAPES = {0: (0, 0, 0), 87: (1, 0, 0), 89: (1, 2, 0), 16: (0, 1, 0), 255: (1, 0, 0), **{op: (0, 1, 0) for op in range(2, 9)}, **{26 + k: (0, 1, k + 1) for k in range(4)},
          **{59 + k: (1, 0, k + 1) for k in range(4)}, **{op: (2, 1, 0) for op in (96, 100, 126, 128, 130)}}


def is_bare(data):
    """whether bytes are a bare image"""
    if len(data) < 14 or data[:6] != b'JOPB\0\1':
        return False
    most_locals, most, length = struct.unpack('>HHI', data[6:14])
    code = data[14:]
    if length != len(code) or not 1 <= length <= 4096 or most_locals + 5 + most > 176 or code[-1] != 177:
        return False
    at, depth = 0, 0
    while at < length - 1:
        takes, leaves, local = SHAPES.get(code[at], (1000, 0, 0))
        if takes > depth or depth - takes + leaves > most or local > most_locals:
            return False
        depth += leaves - takes
        at += 2 if code[at] == 16 else 1
    return at == length - 1


def run_plainly(data, show=()):
    """a run by the plain simulator"""
    with tempfile.NamedTemporaryFile() as file:
        file.write(data)
        file.flush()
        ran = subprocess.run([sys.argv[1], *show, sys.argv[2], file.name, *SETTINGS], stdin=subprocess.DEVNULL, capture_output=True)
    return ran.returncode, ran.stdout, ran.stderr.decode()


BAD = 2, b'', 'bad image\n'


def bare(table):
    """a bare image, run, traced and checked"""
    item = '=' + spelled(BARE)
    for way in all_ways(BARE, '00', '59'):
        table.each('run b' + item, 'b:' + way, lambda data: run_plainly(data) if is_bare(data) else BAD)
    for way in ('cut', 'xor=01', 'xor=10'):
        table.each('trace b' + item, 'b:' + way, lambda data: run_plainly(data, ['--trace']) if is_bare(data) else BAD)
    never = "b=' c='JOPC%201%0Aroot%205%0Abound%20never"
    for way in ('xor=02', 'with=57'):
        table.each('check i%s %s' % (item, never), 'i:' + way, lambda data: (2, b'', 'check: missing #5\n') if is_bare(data) else BAD)
        table.each('bound --method A.e()V i%s b=\'' % item, 'i:' + way, lambda data: (2, b'', 'bound: no method\n') if is_bare(data) else BAD)


# ---- class files


def of_class_file(data, file=0):
    """what `link` says of a class file alone, or behind good ones"""
    if damage.is_taken_apart(data):
        return 'refused or linked'
    major = int.from_bytes(data[6:8], 'big')
    if len(data) >= 8 and data[:4] == b'\xca\xfe\xba\xbe' and not 50 <= major <= 52:
        return 2, b'', 'link: unsupported version file=%d major=%d\n' % (file, major)
    return 2, b'', 'link: bad class file=%d\n' % file


def class_files(table):
    """a class file with main alone, and one with calls, loops and handlers; and two of the standard's traps"""
    small, large = main_class(b'\x03\x57'), programs.worked()
    for way in all_ways(small, '00'):
        table.each('link --main Main A.class=' + spelled(small), 'A.class:' + way, of_class_file)
    for way in ('cut@0-9999/13', 'xor=01@0-9999/7', 'xor=80@3-9999/7', 'twice=08@0-9999/31'):
        table.each('link --main A A.class=' + spelled(large), 'A.class:' + way, of_class_file)
    row = 'link --main Main A.class=%s B.class=%s' % (spelled(small), spelled(large))
    for way in ('cut@0-9999/29', 'with=00@0-7/1'):
        table.each(row, 'B.class:' + way, lambda data: of_class_file(data, 1))
    for code, rule in (('03aa00000000000000000001 00000000', 'operand'), ('03ab0000 00000000 7fffffff', 'opcode')):
        data = main_class(bytes.fromhex(code))
        table.call('link --main Main A.class=' + spelled(data), 2, b'', 'link: not verified file=0 method=0 pc=1 rule=%s\n' % rule)


# ---- linked images


class Linked:
    """a program of one class A, its image, and what commands say of the image with damage in front of its class file"""

    def __init__(self, data):
        self.data, self.program = data, flow.Program('A', [data])
        self.words = [flow.expected_image.word(each) for _, region in self.program.image.regions() for each in region]
        self.image = image_file.ImageFile(b'A', self.words, [data]).data()

    def link(self, table):
        """links it, so that `=@` is its image"""
        program = self.program
        line = 'linked classes=%d methods=%d words=%d bytes=%d\n' % (len(program.classes), len(program.coded), len(self.words), len(self.image))
        table.call('link --main A A.class=' + spelled(self.data), 0, self.image, line)

    def of_image(self, good):
        """what is said of a damaged image: no image, another main class, or the first word that differs"""
        def answer(data):
            try:
                found = image_file.read(data)
            except (ValueError, struct.error):
                return BAD
            if found.files != [self.data] or sum(4 + len(file) for file in found.files) > len(data):
                return BAD
            if found.main != b'A':
                return 2, b'', 'link: no main\n'
            k = next((k for k in range(max(len(found.words), len(self.words))) if found.words[k:k + 1] != self.words[k:k + 1]), None)
            if k is None:
                return good
            kept, linked = ('%08x' % each[k] if k < len(each) else 'none' for each in (found.words, self.words))
            return 2, b'', 'differs word=%d kept=%s linked=%s\n' % (k, kept, linked)
        return answer

    def of_bounds(self, command):
        """what `bound` or `check` says with damaged bounds"""
        def answer(data):
            bounds = read_bounds(data)
            if isinstance(bounds, str):
                return 2, b'', bounds + '\n'
            return command(data, bounds)
        return answer

    def bounded(self, method):
        """what `bound` says of a method, with the ends of its certificate"""
        def answer(data, bounds):
            study = Study(self.program, Timing(), bounds)
            cause = study.cause(method)
            if cause is not None:
                return 2, b'', 'bound: %s\n' % cause
            printed = study.printed(study.root(method))
            return 0, 'JOPC 2 .. bound ' + ('never' if printed is None else str(printed)), ''
        return answer

    def checked(self, text):
        """what `check` says of a certificate"""
        return lambda data, bounds=None: verdict(checked(self.program, Timing(), data, text))

    def of_certificate(self, bounds):
        return lambda data: verdict(checked(self.program, Timing(), bounds, data.decode('latin-1')))

    def certificate(self, method, bounds, version=1):
        study = Study(self.program, Timing(), read_bounds(bounds))
        return Maker(study, version).made(study.root(method)).text()


def verdict(line):
    return 0 if line.startswith('holds ') else 2, b'', line + '\n'


def text(data):
    """how a row spells a text"""
    data = data if isinstance(data, str) else data.decode()
    return "'" + data.replace('%', '%25').replace(' ', '%20').replace('\n', '%0A')


def linked(table):
    """an image, its bounds and its certificates, with damage"""
    each = Linked(programs.worked())
    lines = ['A.n()V 2 loop<=5\n', '# no more\n', 'A.l(I)V 0 loop<=12\n', '\n', 'A.k()V 2 loop<=5\n']
    bounds = ''.join(lines).encode()
    for fill in (images_checked, images_run, bounds_of_bound, bounds_of_check, bytes_of_certificates, lines_of_certificates):
        each.link(table)
        fill(table, each, bounds)


FRONT = '@0-19/1'


def images_checked(table, each, bounds):
    """the image by the commands with bounds: its front at each place, all of it at some, up to the class file"""
    behind = len(each.image) - len(each.data) - 4
    good = each.certificate('A.e()V', b'')
    holds = 0, b'', 'holds A.e()V %s\n' % good.split('bound ')[1].strip()
    for way in ('xor=01' + FRONT, 'xor=80' + FRONT, 'with=00' + FRONT, 'without' + FRONT, 'cut@0-99999/211', 'xor=40@20-%d/97' % (behind - 1), 'twice=04@17-%d/400' % (behind - 1)):
        table.each("check i=@ b=' c=" + text(good), 'i:' + way, each.of_image(holds))
    for way in ('xor=01' + FRONT, 'cut@0-99999/307', 'xor=20@20-%d/197' % (behind - 1)):
        table.each("bound --method A.e()V i=@ b='", 'i:' + way, each.of_image((0, 'JOPC 2 .. ' + good.split('\n')[-2], '')))


def images_run(table, each, bounds):
    """the same by the commands that run it"""
    behind = len(each.image) - len(each.data) - 4
    for command, show in (('run', []), ('trace', ['--trace'])):
        for way in ('xor=02' + FRONT, 'cut@0-99999/307', 'xor=20@20-%d/197' % (behind - 1)):
            table.each(command + ' i=@', 'i:' + way, each.of_image(run_plainly(each.image, show)))


def bounds_of_bound(table, each, bounds):
    """bounds by `bound`: the first line byte by byte, and line by line"""
    for way in all_ways(bounds, '20', '0a', '30'):
        table.each('bound --method A.n()V i=@ b=' + text(bounds), 'b:' + way + '@0-21/1', each.of_bounds(each.bounded('A.n()V')))
    for way in ('line', 'lines', 'swap'):
        table.each('bound --method A.b()V i=@ b=' + text(bounds), 'b:' + way, each.of_bounds(each.bounded('A.b()V')))
    table.call('bound --method A.n()V i=@ b=1000000*61', 2, b'', 'bad bounds line=1\n')


def bounds_of_check(table, each, bounds):
    """the same by `check`"""
    good = each.certificate('A.n()V', bounds)
    for way in ('cut', 'xor=01', 'with=20', 'with=0a', 'without'):
        table.each('check i=@ b=%s c=%s' % (text(bounds), text(good)), 'b:' + way + '@0-99/2', each.of_bounds(each.checked(good)))
    table.call('check i=@ b=1000000*61 c=' + text(good), 2, b'', 'bad bounds line=1\n')


def bytes_of_certificates(table, each, bounds):
    """a certificate of a method that returns, byte by byte"""
    small = each.certificate('A.e()V', b'')
    for way in all_ways(small, '20', '0a', '30', '2d') + ['xor=20', 'xor=02', 'line', 'lines', 'swap']:
        table.each("check i=@ b=' c=" + text(small), 'c:' + way, each.of_certificate(b''))


def lines_of_certificates(table, each, bounds):
    """certificates of methods with loops, with calls and with raise steps, line by line; the first one at some bytes, too"""
    for version, method in ((1, 'A.n()V'), (2, 'A.n()V'), (1, 'A.b()V'), (2, 'A.d(II)I')):
        large = each.certificate(method, bounds, version)
        for way in ('line', 'lines', 'swap'):
            table.each('check i=@ b=%s c=%s' % (text(bounds), text(large)), 'c:' + way, each.of_certificate(bounds))
    large = each.certificate('A.n()V', bounds)
    for way in ('cut@0-9999/3', 'xor=01@1-9999/3', 'xor=03@2-9999/5', 'without@0-9999/5', 'with=39@0-9999/4', 'twice=07@0-9999/9'):
        table.each('check i=@ b=%s c=%s' % (text(bounds), text(large)), 'c:' + way, each.of_certificate(bounds))


# ---- texts of microcode


def texts(table):
    """a text with labels, turns and directives"""
    status, out, line = microcode.answer(MICROCODE)
    table.call('asm t=' + text(MICROCODE), status, out, line)
    for way in all_ways(MICROCODE, '20', '0a', '3b', '3a') + ['xor=02', 'line', 'lines', 'swap', 'twice=05']:
        table.each('asm t=' + text(MICROCODE), 't:' + way, microcode.answer)


# ---- lines of sources, and the bounds of all methods


def sourced(table):
    """notes of lines and of places by `headers`, and bounds by `bound --all`, byte by byte and line by line"""
    k = hand_headers.Sourced('A', 'A.java')
    k.lines('f', hand_headers.LOOP, [(0, 7)]).lines('c', hand_headers.COUNTS, [(0, 9)]).main()
    each = Linked(k.data())
    each.link(table)
    known, notes = Headers('A', [each.data]), 'A.java:7 loop<=15\n# no more\nA.f(II)V 2 loop<=12\n\nA.java:9 loop<=3\n'

    def of_notes(data):
        answer = known.answer(data)
        if isinstance(answer, str):
            return 2, b'', answer.encode('utf-8', 'surrogateescape').decode('utf-8', 'replace') + '\n'
        return 0, ''.join(line + '\n' for line in answer).encode(), ''
    for way in ('cut', 'without', 'with=20', 'with=0a', 'with=30', 'with=3a', 'xor=01', 'xor=80', 'line', 'lines', 'swap'):
        table.each('headers i=@ l=' + text(notes), 'l:' + way, of_notes)
    bounds = 'A.f(II)V 2 loop<=12\n# no more\nA.c(II)V 2 loop<=10\n'

    def of_bounds(data):
        answer = all_bounds(each.program, Timing(), data)
        return (2, b'', answer + '\n') if isinstance(answer, str) else (0, '%s .. %s' % (answer[0], answer[-1]), '')
    for way in ('cut', 'with=20', 'xor=01', 'line', 'lines', 'swap'):
        table.each('bound --all i=@ b=' + text(bounds), 'b:' + way, of_bounds)


def main():
    table = Table()
    for fill in (bare, class_files, linked, texts, sourced):
        before = table.calls
        fill(table)
        print('%s: %d damages' % (fill.__name__, table.calls - before))
    with open(os.path.join(TABLES, 'damage.damaged'), 'w') as file:
        file.write('\n'.join(table.rows) + '\n')
    with open(os.path.join(TABLES, 'damage.wanted'), 'w') as file:
        file.write('\n'.join(table.wanted) + '\n')


if __name__ == '__main__':
    main()
