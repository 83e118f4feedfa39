"""Rows of the bounds of a method in each shape of the method cache whose numbers are powers of two: by hand, and of programs of javac; and words, files and texts of `bound --shapes`."""
import copy
import os
import random
import sys

HERE = os.path.dirname(os.path.abspath(__file__))
sys.path[:0] = [HERE, os.path.join(HERE, '../graphs'), os.path.join(HERE, '../../harness')]
import analysis  # noqa: E402
import flow  # noqa: E402
import programs  # noqa: E402
from all_rows import MOST, large  # noqa: E402
from call_rows import BARE, LIMIT, LONG_BARE, Calls  # noqa: E402
from costs import Timing  # noqa: E402
from kind import sum_of  # noqa: E402
from study import Study, read_bounds  # noqa: E402
from tables import MAIN, bounds_of, javac_programs, lines_of, region_bounds, roots_of  # noqa: E402

COUNTS, SIZES = [2 ** k for k in range(9)], [2 ** k for k in range(11)]
WIDEST = COUNTS[-1], SIZES[-1]


def timing_of(waits, blocks, block_words):
    return Timing(*waits, blocks, block_words)


def on(study, timing):
    """the study of the same program and bounds on another machine; graphs don't change with it"""
    other = copy.copy(study)
    other.timing, other.fitting, other.known, other.walked = timing, {}, {}, {}
    return other


def shape_word(study, timing, root):
    """what is found in a shape of a method that has a bound in some shape, or whose number is too large: a number, `never`, `too-long` or `too-large`"""
    study = on(study, timing)
    if study.too_long() is not None:
        return 'too-long'
    if any(study.exceeds(root, m) for m in study.region(root)):
        return 'too-large'
    printed = study.printed(root)
    return 'never' if printed is None else str(printed)


def shape_lines(study, waits, method):
    """the lines of all shapes, or the line that refuses the method, in the widest shape"""
    cause = on(study, timing_of(waits, *WIDEST)).cause(method)
    if cause is not None and not cause.startswith('too large '):
        return 'bound: ' + cause
    root = study.root(method)
    return ['blocks=%d block-words=%d bound=%s' % (blocks, words, shape_word(study, timing_of(waits, blocks, words), root)) for words in SIZES for blocks in COUNTS]


class Shapes(analysis.ProgramRows):
    """rows of the bounds of methods in all shapes"""

    def program(self, title, main, files, reference=None):
        super().program(title, main, files, reference)
        self.study = Study(flow.Program(main, files), Timing(), {})

    def with_bounds(self, bounds):
        """the study with these bounds"""
        other = on(self.study, Timing())
        other.bounds = bounds
        return other

    def shapes(self, title, waits, method, lines, said=None):
        """a row; a line that is said has to be the one that refuses, words that are said have to be among those that are found"""
        read, write = waits
        options = [word for name, value, usual in (('--read', read, 1), ('--write', write, 2)) if value != usual for word in (name, str(value))]
        self.rows.append('\t'.join(['shapes', title, ' '.join(options), method, '|'.join(lines)]))
        bounds = read_bounds(analysis.text_of('|'.join(lines)))
        answer = bounds if isinstance(bounds, str) else shape_lines(self.with_bounds(bounds), waits, method)
        if isinstance(answer, str):
            assert said in (None, answer), (title, said, answer)
            self.wanted.append('%s: %s' % (title, answer))
            return
        found = {line.rpartition('=')[2] for line in answer}
        assert not isinstance(said, str) and set(said or []) <= found, (title, said, found)
        self.wanted += ['%s: put' % title, *('  ' + line for line in analysis.by_block_words(answer))]
        for line in answer:
            word = line.rpartition('=')[2]
            word = 'a number' if word.isdigit() else word
            self.count[word] = self.count.get(word, 0) + 1


def shapes_by_hand(table):
    """each answer and each refusal"""
    usual = (1, 2)
    table.program('worked', 'A', [programs.worked()])
    table.shapes('one return', usual, 'A.e()V', [], ['too-long'])
    table.shapes('one return, no waits', (0, 0), 'A.e()V', [], ['too-long'])
    table.shapes('never', usual, 'A.g()V', ['A.g()V 0 loop<=5'], ['too-long', 'never'])
    table.shapes('a loop with a call', usual, 'A.b()V', ['A.k()V 2 loop<=10'], ['too-long'])
    table.shapes('a loop with a call, longest waits', (63, 63), 'A.b()V', ['A.k()V 2 loop<=10'], ['too-long'])
    table.shapes('bad', usual, 'A.e()V', ['A.g()V 0 loop<=5', 'A.java:3 loop<=5'], 'bad bounds line=2')
    table.shapes('twice', usual, 'A.e()V', ['A.g()V 0 loop<=5', 'A.g()V 0 loop<=5', 'x'], 'twice bound line=2')
    table.shapes('no method', usual, 'A.x()V', [], 'bound: no method')
    table.shapes('the one that starts the program', usual, 'jop/Boot.boot()V', [], 'bound: no method')
    table.shapes('no line of the loop', usual, 'A.n()V', ['A.n()V 3 loop<=1'], 'bound: missing bound A.n()V 2')
    table.program('refused', 'A', [programs.refused()])
    table.shapes('recursion', usual, 'A.r()V', [])
    table.shapes('several entries', usual, 'A.m(I)V', [])
    table.program('large', 'A', [large()])
    lines = ['A.n(I)V 0 loop<=%d' % MOST, 'A.n(I)V 4 loop<=%d' % MOST]
    table.shapes('too large', usual, 'A.n(I)V', lines, ['too-long', 'too-large'])
    table.shapes('not too large', usual, 'A.n(I)V', [lines[0], 'A.n(I)V 4 loop<=3'], ['too-long'])
    table.program('regions', 'A', [programs.regions()])
    table.shapes('regions', usual, 'A.m()V', ['A.m()V 5 loop<=10'], ['too-long'])
    table.program('choosing', 'A', [choosing()])
    for turns, is_risen in ((0, True), (5, False)):
        assert rises(table.with_bounds({('A.m(I)V', 0): turns}), 'A.m(I)V') == is_risen
        table.shapes('a call of two, %d turns' % turns, usual, 'A.m(I)V', ['A.m(I)V 0 loop<=%d' % turns], ['too-long'])
    table.program('two_regions', 'A', [programs.two_regions()])
    last = last_within(table)
    for turns, said in ((last, ['too-long']), (last + 1, ['too-long', 'too-large'])):
        table.shapes('%d turns' % turns, usual, 'A.p()V', lines_of(two_loops(turns)), said)


def two_loops(turns):
    """bounds of a loop and of two within it"""
    return {('A.p()V', 5): MOST, ('A.p()V', 11): turns, ('A.p()V', 26): turns}


def last_within(table):
    """the most turns with which the method has a number in 8 blocks of 64 words, where each call loads; with one more it has one in more blocks alone"""
    def is_large(turns, blocks):
        study = table.with_bounds(two_loops(turns))
        return shape_word(study, Timing(blocks=blocks), study.root('A.p()V')) == 'too-large'
    low, high = 0, MOST
    while high - low > 1:
        middle = (low + high) // 2
        low, high = (low, middle) if is_large(middle, 8) else (middle, high)
    assert not is_large(low + 1, 256)
    return low


def choosing(words=256):
    """a method with a loop that calls one of two methods of so many words each in a turn: where the cache holds all three, both are loaded at each entry, else one in each turn"""
    k = programs.Hand()
    # 0 iload_0, 1 ifle 23, 4 iload_0, 5 ifeq 14, 8 a, 11 goto 17, 14 b, 17 iinc, 20 goto 0, 23 return
    code = bytes.fromhex('1a9e0016 1a990009') + k.call('a') + bytes.fromhex('a70006') + k.call('b') + bytes.fromhex('8400ff a7ffec b1')
    k.static('m', '(I)V', code, frames=[b'\0', b'\x0d', b'\2', b'\5'])
    for name in 'ab':
        code, frames = programs.dead(programs.RETURN, words, [])
        k.static(name, '()V', code, frames=frames)
    k.main()
    return k.data()


def rises(study, method):
    """whether the bound rises from one number of blocks to the next one, for one size of them"""
    answer = [line.rpartition('=')[2] for line in shape_lines(study, (1, 2), method)]
    pairs = [pair for j in range(len(SIZES)) for pair in zip(answer[9 * j:9 * j + 8], answer[9 * j + 1:9 * j + 9])]
    return any(before.isdigit() and after.isdigit() and int(before) < int(after) for before, after in pairs)


def shapes_of_javac(table):
    """the main method of each program with all bounds, or where it has none the method with the most methods below it"""
    for title, main, reference in javac_programs():
        _, _, files = analysis.program_of(' '.join(['program', title, main, *reference]))
        chance = random.Random('shapes ' + title)
        table.program(title, main, files, reference)
        study = table.with_bounds(bounds_of(table.study.program, chance, 0, 12))
        names = [main.replace('.', '/') + MAIN] + [study.program.names[m] for m in roots_of(study)]
        method = next(name for name in names if study.cause(name) is None or name == names[-1])
        table.shapes('all bounds', chance.choice([(1, 2), (1, 2), (3, 7), (0, 63)]), method, region_bounds(study, study.root(method)))


# ---- calls


def shape_calls():
    """words, each excluded option in both orders, files, images and texts, and one whole answer"""
    table, call = Calls(), 'bound --shapes --method A.e()V i b'
    for words, place in (('bound --shapes', 2), ('bound --shapes i b', 2), ('bound --shapes --method', 3), ('bound --shapes --method A.e()V', 4), ('bound --shapes --method A.e()V i', 5),
                         ('bound --shapes --method A.e()V i %', 5), ('bound --shapes --method A.e()V % b', 4), ('bound --shapes --method % i b', 3), ('bound --shapes --method A.e()V i b c', 6),
                         ('bound --shapes --shapes --method A.e()V i b', 2), ('bound --shapes --method A.e()V --method A.e()V i b', 4),
                         ('bound --shapes --all i b', 2), ('bound --all --shapes i b', 2), ('bound --shapes --method A.e()V --all i b', 4),
                         ('bound --shapes --blocks 8 --method A.e()V i b', 2), ('bound --blocks 8 --shapes --method A.e()V i b', 3), ('bound --method A.e()V --shapes --blocks 8 i b', 4),
                         ('bound --shapes --block-words 8 --method A.e()V i b', 2), ('bound --block-words 8 --method A.e()V --shapes i b', 5),
                         ('bound --shapes --read 64 --method A.e()V i b', 3), ('bound --shapes --write -1 --method A.e()V i b', 3), ('bound --shapes --stack 256 --method A.e()V i b', 2),
                         ('bound --shapes --memory 16 --method A.e()V i b', 2), ('bound --shapes --micro --method A.e()V i b', 2), ('check --shapes i b c', 1), ('run --shapes i', 1),
                         ('headers --shapes i', 1), ('loops --shapes i', 1)):
        table.add(words, 2, 'usage: word %d' % place)
    table.add(call, 4, 'read fault')
    table.add(call, 4, 'read fault', i=BARE)
    table.add(call, 4, 'read fault', b='x')
    table.add(call, 4, 'read fault', i='=folder', b='x')
    table.add(call, 2, 'too big b sum=%d' % (LIMIT + 1), i=BARE, b='=%d*0a' % (LIMIT + 1 - len(BARE)))
    table.add(call, 2, 'bad image', i=BARE + b'\0', b='x')
    # a bare image has no method with a name; its code fits one of the shapes
    table.add(call, 2, 'bad bounds line=1', i=BARE, b='x')
    table.add(call, 2, 'twice bound line=2', i=BARE, b='A 1 loop<=1\nA 1 loop<=1\n')
    table.add(call, 2, 'bound: no method', i=BARE, b='')
    table.add(call, 2, 'bound: no method', i=LONG_BARE, b='')
    data = programs.worked()
    program = flow.Program('A', [data])
    table.link(program, data)
    for words, waits in ((call, (1, 2)), ('bound --method A.e()V --write 0 --shapes --read 9 i b', (9, 0))):
        text = ''.join(line + '\n' for line in shape_lines(Study(program, Timing(), {}), waits, 'A.e()V')).encode()
        assert text.count(b'\n') == len(COUNTS) * len(SIZES)
        table.add(words, 0, '', i='=@', b='')
        table.wanted[-2:] = ['%s -> 0, out %d bytes, sum %08x' % (words, len(text), sum_of(text)), '  ""']
    table.add(call, 2, 'bad bounds line=1', i='=@', b='x')
    table.add(call.replace('A.e', 'A.x'), 2, 'bad bounds line=1', i='=@', b='x')
    table.add(call.replace('A.e', 'A.x'), 2, 'bound: no method', i='=@', b='')
    table.add(call.replace('A.e', 'A.n'), 2, 'bound: missing bound A.n()V 2', i='=@', b='')
    for stream in ('full', 'closed', 'gone'):
        table.add('>%s %s' % (stream, call), 4, 'write fault', i='=@', b='')
        table.wanted[-2] = '%s >%s -> 4, out .' % (call, stream)
    return table.rows, table.wanted
