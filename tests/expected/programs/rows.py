#!/usr/bin/env python3
"""rows.py CLASSES CONTROLLER PLAIN MICROCODE: writes tests/tables/programs, and the rows of crates/test_commands whose input or output fails.

CLASSES is where `javac --release 8` put the classes of this folder, CONTROLLER where it put those of examples/controller. The image of each program is worked out by
../images/expected_image.py from the format alone. The images are run by PLAIN, the plain simulator of this folder's parent, over the text MICROCODE:
what they put out is what a Java virtual machine puts out with the same classes, and the cycles are those of the plain simulator."""
import os
import struct
import subprocess
import sys

HERE = os.path.dirname(os.path.abspath(__file__))
sys.path.insert(0, os.path.join(HERE, '../images'))
import expected_image
import worked
import class_writer as writer
from classfile import ClassFile

MAIN = '([Ljava/lang/String;)V'
PUBLIC_STATIC = 9


class Made(ClassFile):
    """a class file by hand, whose code has exceptions and frames"""

    def __init__(self, name, above='java/lang/Object', major=52, **more):
        super().__init__(0x21, name, above, **more)
        self.major = major

    def code(self, flags, name, descriptor, code, stack=2, local=1, table=(), frames=b'', count=0):
        maps = [writer.attribute(self.utf8('StackMapTable'), writer.u2(count) + frames)] if frames else []
        named = self.utf8(name), self.utf8(descriptor)
        self.methods.append(writer.member(flags, *named, [writer.attribute(self.utf8('Code'), writer.code(stack, local, code, table, maps))]))
        return self

    def field(self, flags, name, descriptor):
        self.fields.append(writer.member(flags, self.utf8(name), self.utf8(descriptor)))

    def main(self, code, **more):
        return self.code(PUBLIC_STATIC, 'main', MAIN, code, **more)

    def bytes(self):
        return self.data((0, self.major))


def sum_of(data):
    total = 0
    for byte in data:
        total = (total * 31 + byte) & 0xFFFFFFFF
    return total


def out_text(data):
    return '%d bytes, sum %08x' % (len(data), sum_of(data)) if len(data) > 64 else data.hex() + '.'


def lines_shown(data):
    """the lines of a trace that are printed: of a long one the first eight and the last eight"""
    lines = data.decode().splitlines()
    return lines if len(lines) <= 24 else lines[:8] + lines[-8:]


def pieces(text):
    """what is put of the lines of a trace, call by call"""
    for line in text.decode().splitlines():
        words = line.split()
        if words[0] == 'write':
            yield from ('write ', words[1], '\n')
        elif 'frames=' in line:
            frames, operands = words[4].split('='), words[5].split('=')
            yield from (words[0], ' ', words[1], ' ', words[2], ' ', words[3], ' frames=', frames[1], ' operands=', operands[1], '\n')
        else:
            for word, behind in zip(words, '     \n'):
                yield from (word, behind)


def image_of(main, files):
    image = expected_image.link(main.encode(), files)
    words = [expected_image.word(w) for _, region in image.regions() for w in region]
    name = main.encode()
    data = b'JOPI' + struct.pack('>HH', 1, len(name)) + name + struct.pack('>II', len(words), len(files))
    data += b''.join(struct.pack('>I', w) for w in words) + b''.join(struct.pack('>I', len(f)) + f for f in files)
    line = 'linked classes=%d methods=%d words=%d bytes=%d' % (len(image.classes), len(image.coded), len(words), len(data))
    return data, line


class Table:
    """rows that a user can type, and those over objects in memory, of which a call fails; each beside what it has to give"""

    def __init__(self):
        self.typed, self.failing, self.link, self.is_told = [], [], None, False

    def call(self, items, status, out, line):
        """a call; an item is a word, or a word and its file's bytes ('@' for those that `link` put out last), or the input"""
        texts, words = [], []
        for item in items:
            if isinstance(item, bytes):
                texts.append('<' + item.hex())
            elif isinstance(item, tuple):
                texts.append(item[0] + '=' + (item[1] if item[1] == '@' else item[1].hex()))
                words.append(item[0])
            else:
                texts.append(item)
                words += [item] if item[0] not in '!^' else []
        shown = lines_shown(out) if words[0] == 'trace' else []
        wanted = [' '.join(words) + ' -> %d, out %s' % (status, out_text(out)), '  "' + line + '\\n"'] + ['  ' + each for each in shown]
        self.add((' '.join(texts), wanted), words[0] == 'link', texts[0][0] in '!^')

    def add(self, row, is_link, is_failing):
        """adds a row; in front of one that fails goes the link of its image, once"""
        if is_link:
            self.link, self.is_told = row, False
        if not is_failing:
            self.typed.append(row)
            return
        if '=@' in row[0] and not self.is_told:
            self.failing.append(self.link)
            self.is_told = True
        self.failing.append(row)

    def refused(self, line, *files, main='A'):
        names = ['%c.class' % (ord('a') + i) for i in range(len(files))]
        self.call(['link', '--main', main] + list(zip(names, files)), 2, b'', line)

    def linked(self, main, files, spelled=None):
        data, line = image_of(main, [f for _, f in files])
        self.call(['link', '--main', spelled or main] + files, 0, data, line)
        return data


def plain(name='A', major=52):
    return Made(name, major=major).main(b'\xb1')


def links(table):
    branch = b'\x03\x99\x00\x03\xb1'
    table.refused('link: unsupported version file=0 major=53', plain(major=53).bytes())
    table.refused('link: not verified file=0 method=0 pc=1 rule=target', Made('A', major=50).main(branch).bytes())
    table.linked('A', [('a.class', Made('A', major=50).main(branch, frames=b'\x04', count=1).bytes())])
    table.refused('link: unsupported file=0 method=0 pc=0 item=fadd', Made('A').main(b'\x62\xb1').bytes())
    names = Made('A')
    entry = names.member(9, 'java/lang/System', 'out', 'I')
    table.refused('link: unresolved file=0 entry=%d why=NoClass name=java/lang/System' % entry, names.main(b'\xb2' + struct.pack('>H', entry) + b'\x57\xb1').bytes())
    table.refused('link: unsupported file=0 method=0 pc=2 item=lmul', Made('A').main(b'\x0a\x0a\x69\x57\xb1', stack=4).bytes())
    table.refused('link: not verified file=0 method=0 pc=1 rule=stack', Made('A').main(b'\x09\x57\xb1').bytes())
    table.refused('link: duplicate file=1 name=A', plain().bytes(), plain().bytes())
    table.linked('A', [('a.class', plain().bytes())])
    table.refused('link: no main', plain().bytes(), main='B')
    orphan = plain()
    orphan.above = 0
    table.refused('link: bad hierarchy file=0', orphan.bytes())
    table.refused('link: bad class file=1', plain().bytes(), plain('B').bytes()[:-1])
    lost = Made('A')
    lost_method = lost.member(10, 'A', 'step', '(I)I')
    table.refused('link: unresolved file=0 entry=%d why=NoMethod name=A.step(I)I' % lost_method, lost.main(b'\x03\xb8' + struct.pack('>H', lost_method) + b'\x57\xb1').bytes())
    lost = Made('A')
    lost_field = lost.member(9, 'A', 'sum', 'J')
    table.refused('link: unresolved file=0 entry=%d why=NoField name=A.sumJ' % lost_field, lost.main(b'\xb2' + struct.pack('>H', lost_field) + b'\x58\xb1').bytes())
    table.refused('link: not verified file=1 method=1 pc=2 rule=stack', plain().bytes(), Made('B').code(9, 'f', '()V', b'\xb1').code(9, 'g', '()V', b'\x03\x57\x57\xb1').bytes())
    packed = Made('app/Main').main(b'\xb1').bytes()
    table.linked('app/Main', [('app/Main.class', packed)])
    table.linked('app/Main', [('app/Main.class', packed)], spelled='app.Main')
    table.call(['link', '--main', 'A', ('a.class', plain().bytes()), 'b.class'], 4, b'', 'read fault')
    table.call(['link', ('a.class', plain().bytes())], 2, b'', 'usage: word 1')
    table.call(['link', '--main', 'A'], 2, b'', 'usage: word 3')
    table.call(['link', '--main', 'A', '--main', 'A', ('a.class', plain().bytes())], 2, b'', 'usage: word 3')


CONTROLLER = ['Main', 'Gain', 'Stage', 'Mean', 'Weights', 'Overload']
PROGRAMS = {
    'Recursion': [], 'Unwinding': ['Fault'], 'Words': [], 'Sorting': [], 'Filling': ['Node'], 'Levels': ['Named', 'Sized', 'Base', 'Middle', 'Last', '1'],
    'Starting': ['One', 'Two', 'Three'], 'Longs': [], 'Echo': [], 'Locks': [], 'Arrays': [], 'Types': ['Shape', 'Square'], 'Uncaught': ['Fault'], 'Branches': [],
    'Adding': ['Stage', 'Gain'], 'Wrapping': [],
}
INPUT = b'hello \xff\0 world'
SAMPLES = bytes([1, 10, 20, 30, 40, 100, 128, 255, 0, 0, 127, 3])


def read(folder, name):
    with open(os.path.join(folder, name + '.class'), 'rb') as file:
        return file.read()


def run_plainly(simulator, microcode, data, given, stack=1024, memory=262144, cycles=10**9, show=()):
    with open('/tmp/rows.jopi', 'wb') as file:
        file.write(data)
    settings = [str(n) for n in (stack, memory, 16, 64, 1, 2, cycles)]
    ran = subprocess.run([simulator, *show, microcode, '/tmp/rows.jopi', *settings], input=given, capture_output=True)
    return ran.returncode, ran.stdout, ran.stderr.decode().strip()


def trace_plainly(runner, data, given, micro=False, **settings):
    """the lines of a run, which ends as it does without them and writes the same"""
    ran = run_plainly(*runner, data, given, **settings)
    status, text, line = run_plainly(*runner, data, given, show=['--micro' if micro else '--trace'], **settings)
    lines = text.decode().splitlines()
    assert (status, line) == (ran[0], ran[2])
    assert bytes(int(each[6:], 16) for each in lines if each.startswith('write ')) == ran[1]
    cycles = int(line.split('cycles=')[1].split()[0])
    states = [each.split()[0] for each in lines if not each.startswith('write ') and 'frames=' not in each]
    assert states == [str(n) for n in range(cycles if micro else 0)]
    return status, text, line


def show_trace(table, runner, main, files, given, data, micro=False, **settings):
    """a call of `trace` on the image that was linked last"""
    options = ['--micro'] if micro else []
    options += [word for name, value in settings.items() for word in ('--' + name, str(value))]
    status, text, line = trace_plainly(runner, data, given, micro, **settings)
    table.call([given, 'trace'] + options + [('image', '@')], status, text, with_name(line, main, files))
    return text


def with_name(line, main, files):
    """the line, with the name of the class whose number stands in it"""
    words = line.split()
    if words[0] == 'uncaught':
        words[1] = expected_image.link(main.encode(), files).classes[int(words[1]) - 8].name.decode()
    return ' '.join(words)


def run_by_java(folder, main, given):
    ran = subprocess.run(['java', '-Xmx64m', '-XX:+UseSerialGC', '-cp', folder, main], input=given, capture_output=True)
    return ran.stdout


def programs(table, classes, controller, runner):
    rows = [('Main', controller, CONTROLLER, SAMPLES)]
    rows += [(main, classes, [main] + [main + '$' + inner for inner in inners], INPUT) for main, inners in PROGRAMS.items()]
    for main, folder, names, given in rows:
        data = table.linked(main, [(name + '.class', read(folder, name)) for name in names])
        status, out, line = run_plainly(*runner, data, given)
        assert out == run_by_java(folder + os.pathsep + classes, main, given), main
        files = [read(folder, n) for n in names]
        table.call([given, 'run', ('image', '@')], status, out, with_name(line, main, files))
        if main in ('Main', 'Unwinding'):
            text = show_trace(table, runner, main, files, given, data)
            show_trace(table, runner, main, files, given, data, micro=True)
            raised = text.decode().splitlines()[[' raise ' in each for each in text.decode().splitlines()].index(True)]
            show_trace(table, runner, main, files, given, data, cycles=int(raised.split()[0]) + 1)


def image_bytes(main, words, files):
    data = b'JOPI' + struct.pack('>HH', 1, len(main)) + main + struct.pack('>II', len(words), len(files))
    return data + b''.join(struct.pack('>I', w) for w in words) + b''.join(struct.pack('>I', len(f)) + f for f in files)


def images(table, classes):
    """images that aren't run, or not to their end"""
    files = [read(classes, 'Echo')]
    image = expected_image.link(b'Echo', files)
    words = [expected_image.word(w) for _, region in image.regions() for w in region]
    data = image_bytes(b'Echo', words, files)

    def run(options, data, status, line, out=b''):
        table.call([INPUT, 'run'] + options.split() + [('image', data)], status, out, line)

    run('', data[:-1], 2, 'bad image')
    run('', data + b'\0', 2, 'bad image')
    run('', image_bytes(b'Echo', words[:7] + [words[7] ^ 1] + words[8:], files), 2, 'differs word=7 kept=%08x linked=%08x' % (words[7] ^ 1, words[7]))
    run('', image_bytes(b'Echo', words[:-1], files), 2, 'differs word=%d kept=none linked=%08x' % (len(words) - 1, words[-1]))
    run('', image_bytes(b'Echo', words + [5], files), 2, 'differs word=%d kept=00000005 linked=none' % len(words))
    run('', image_bytes(b'A', [], [plain(major=53).bytes()]), 2, 'link: unsupported version file=0 major=53')
    run('', image_bytes(b'A', words, [plain().bytes(), plain().bytes()]), 2, 'link: duplicate file=1 name=A')
    run('--memory %d' % (len(words) - 1), data, 2, 'memory too small words=%d given=%d' % (len(words), len(words) - 1))
    taken = [-(-len(image.method(p)['code']['code']) // 4) for p in image.coded]
    for limit in (1, 4, max(taken) - 1):
        k = next(i for i, n in enumerate(taken) if n > limit)
        c, name = image.coded[k][0], image.signature(image.coded[k])
        text = image.classes[c].name + b'.' + name[0] + name[1]
        run('--memory 16 --block-words 1 --blocks %d' % limit, data, 2, 'method too long %s blocks=%d limit=%d' % (text.decode(), taken[k], limit))
    run('--cycles 0', data, 3, 'spent cycles=0 hits=0 misses=0')


def failing(table, classes, runner):
    """calls of the input and of out that fail"""
    files = [read(classes, 'Echo')]
    data = table.linked('Echo', [('Echo.class', files[0])])
    turned = bytes(~b & 0xff for b in INPUT)
    for item, out, line in (('!0', b'', 'read fault'), ('!3', turned[:3], 'read fault'), ('^0', b'', 'write fault'), ('^4', turned[:4], 'write fault')):
        table.call([item, INPUT, 'run', ('image', data)], 4, out, line)
    status, out, line = run_plainly(*runner, data, b'')
    assert out == b'\0\xff'
    table.call(['run', ('image', data)], status, out, line)
    for micro, number in ((False, 0), (False, 3), (True, 0), (True, 3)):
        table.call(['!%d' % number, INPUT, 'trace'] + ['--micro'] * micro + [('image', '@')], 4, until_taken(trace_plainly(runner, data, INPUT, micro)[1], number, micro), 'read fault')


def until_taken(text, number, micro):
    """the lines up to those of the step that takes the byte of this number, whose state is shown too"""
    lines = text.splitlines(keepends=True)
    taking = [i for i, line in enumerate(lines) if b' impdep1 ' in line][number]
    return b''.join(lines[:taking + 1 + micro])


def by_hand(table, runner):
    """small programs by hand, with what their runs put out"""

    def run(files, out, status=0, **settings):
        data = table.linked('A', list(zip(['a.class', 'b.class'], files)))
        ran = run_plainly(*runner, data, b'', **settings)
        assert ran[:2] == (status, out), (ran, out)
        options = [word for name, value in settings.items() for word in ('--' + name, str(value))]
        table.call(['run'] + options + [('image', '@')], status, out, with_name(ran[2], 'A', files))

    def words_of(files):
        return int(image_of('A', files)[1].split('words=')[1].split()[0])

    def show(files, micro=False):
        return show_trace(table, runner, 'A', files, b'', image_of('A', files)[0], micro)

    def fail(files, micro, *found):
        """the call that puts the last of these pieces, each the first one behind the one before, fails"""
        text = trace_plainly(runner, image_of('A', files)[0], b'', micro)[1]
        parts, at = list(pieces(text)), -1
        for piece in found:
            at = parts.index(piece, at + 1)
        table.call(['^%d' % at, 'trace'] + ['--micro'] * micro + [('image', '@')], 4, ''.join(parts[:at]).encode(), 'write fault')

    run([worked.division(Made)], b'\x80\0\0\0', 1)
    show([worked.division(Made)])
    across = [worked.across(Made)]
    run(across, b'\x07')
    steps = [line if line.startswith('write') else line.split(' ', 1)[1] for line in show(across).decode().splitlines()]
    assert steps == worked.ACROSS.splitlines(), steps
    show(across, True)
    fail(across, False, 'raise', 'A.f()V')
    fail(across, False, 'impdep2', 'write ')
    fail(across, False, 'impdep2', 'write ', '07')
    fail(across, False, 'impdep2', 'write ', 'jop/Io.write(I)V', '\n')
    fail(across, True, 'iconst_0', '\n', '\n')
    fail(across, True, 'raise', '\n', '054')
    fail(across, True, 'impdep2', 'write ', '07')
    run([worked.handlers(Made)], b'\x02')
    run([worked.depth(Made, 2)], b'\x17', stack=256)
    run([worked.depth(Made, 3)], b'\x16', stack=256)
    some, words = [worked.objects(Made)], words_of([worked.objects(Made)])
    run(some, b'\x0a', memory=words + 12)
    run(some, b'', 1, memory=words + 1)
    table.linked('A', [('a.class', some[0])])
    table.call(['run', '--memory', str(words - 1), ('image', '@')], 2, b'', 'memory too small words=%d given=%d' % (words, words - 1))
    run([worked.empty_switch(Made)], b'')
    run([worked.far_switch(Made)], b'\x02')
    run([worked.other_class(Made), worked.interface(ClassFile)], b'\x07')
    run([plain().bytes()], b'')
    longs = [worked.longs(Made)]
    run(longs, b'', memory=words_of(longs) + 10)
    run(longs, b'', 1, memory=words_of(longs) + 9)


def pieces_of_hello(table, runner):
    """the traces of a bare image, of which each piece fails in turn, and the call behind the last one doesn't"""
    image = b'JOPB\0\1\0\0\0\1\0\0\0\4\x10A\xff\xb1'
    for micro in (False, True):
        status, text, line = trace_plainly(runner, image, b'', micro, memory=16)
        parts = list(pieces(text))
        for number in range(len(parts) + 1):
            whole = number == len(parts)
            table.call(['^%d' % number, 'trace', '--memory', '16'] + ['--micro'] * micro + [('b', image)], status if whole else 4, ''.join(parts[:number]).encode(), line if whole else 'write fault')


def main():
    table, runner = Table(), sys.argv[3:5]
    links(table)
    images(table, sys.argv[1])
    programs(table, sys.argv[1], sys.argv[2], runner)
    failing(table, sys.argv[1], runner)
    by_hand(table, runner)
    pieces_of_hello(table, runner)
    tables = os.path.join(HERE, '../../tables')
    write(table.typed, os.path.join(tables, 'programs.calls'), os.path.join(tables, 'programs.wanted'))
    write(table.failing, 'stdin', 'stdout')


def write(rows, given, wanted):
    with open(given, 'w') as file:
        file.write(''.join(row + '\n' for row, _ in rows))
    with open(wanted, 'w') as file:
        file.write(''.join(line + '\n' for _, lines in rows for line in lines))


main()
