#!/usr/bin/env python3
"""What crates/test_flow reads and must print: worked rows, the programs of javac in tests/tables, and made programs.

    rows.py CRATE            writes `stdin` and `stdout` into the folder of the crate
    rows.py --more FIRST COUNT FOLDER   writes such files of made programs alone, by the numbers from which they are made
"""
import os
import struct
import sys

HERE = os.path.dirname(os.path.abspath(__file__))
sys.dont_write_bytecode = True
sys.path.insert(0, HERE)
import flow  # noqa: E402
import made  # noqa: E402

TABLES = os.path.join(HERE, '../../tables')
# How many programs are made, with at least 200 methods beside their main methods.
PROGRAMS = 21
# The caches, as blocks and words of a block, and one that each region fits.
CACHES, GREATEST = [(1, 8), (2, 16), (16, 4), (16, 64)], (1024, 1024)


def worked():
    """the rows whose answers are worked out by hand too: a graph that isn't reducible, a method that calls itself, one that never ends"""
    k = made.ClassFile('A')
    k.method(9, 'm', '(I)V', (1, 1, bytes.fromhex('1a9900060000001a9afffcb1'), [], [b'\x04', b'\x02']))
    k.method(9, 'r', '()V', (0, 0, b'\xb8' + struct.pack('>H', k.member(10, 'A', 'r', '()V')) + b'\xb1', [], []))
    k.method(9, 'g', '()V', (0, 0, b'\xa7\x00\x00', [], [b'\x00']))
    k.method(9, 'main', made.MAIN, (0, 1, b'\xb1', [], []))
    return 'A', ['A.m(I)V', 'A.r()V', 'A.q()V', 'A.g()V', 'jop/Boot.boot()V'], [k.data()]


def of_javac():
    """the programs of javac in the tables: their titles, main classes and files"""
    seen = set()
    for line in open(os.path.join(TABLES, 'programs.calls')):
        words = line.split()
        if words[:2] == ['link', '--main'] and words[2] not in ('A', 'B', 'app/Main', 'app.Main') and words[2] not in seen:
            files = [each.split('=', 1)[1] for each in words[3:] if '=' in each]
            seen.add(words[2])
            yield words[2], words[2], [bytes.fromhex(each) for each in files]
    for line in open(os.path.join(TABLES, 'rules.verified')):
        if line.startswith('javac_'):
            title, main, *files = line.split()
            yield title[6:], main, [bytes.fromhex(each) for each in files]
    for line in open(os.path.join(TABLES, 'images.images')):
        kind, main, *files = line.split()
        if kind == 'words':
            yield main + '_image', main, [bytes.fromhex(each) for each in files]


def node(u):
    return '%d%s' % (u[0], 'r' if u[1] else '')


def line(title, words):
    return '  %s%s' % (title, ''.join(' ' + each for each in words))


def region_lines(program, methods, indent):
    """the methods of a region, and the caches that they fit"""
    yield indent + line('region', [program.names[m] for m in methods])
    fitting = [(b, w) for b, w in CACHES if program.blocks(methods, w) <= b]
    yield indent + line('fits', ['%dx%d' % each for each in fitting])


def method_lines(program, m):
    """the graph of a method, its loops, what its calls may run, and regions"""
    graph = flow.Graph(program.body(m))
    yield 'method ' + program.names[m]
    yield line('nodes', map(node, graph.nodes))
    yield line('edges', ['%s-%s' % (node(u), node(v)) for u, v in graph.edges])
    yield line('exits', map(node, graph.exits))
    for place, targets in sorted(program.called[m].items()):
        yield line('call %d:' % place, [program.names[t] for t in targets])
    yield from region_lines(program, program.within([m]), '')
    loops = graph.loops()
    if loops is None:
        yield line('irreducible', map(node, graph.reduced()))
        return
    for header, members in loops.items():
        outer = flow.around(loops, header)
        yield line('loop %s%s:' % (node(header), '' if outer is None else ' in ' + node(outer)), map(node, members))
        yield from region_lines(program, program.within_nodes(m, members), '  ')


def root_line(program, root):
    """the methods within a root, or the cycle of calls among them, or that there is no such method"""
    if root not in program.names:
        return 'no method %s:' % root
    m = program.names.index(root)
    cycle = program.cycles(m)
    word, methods = ('order', program.within([m])) if cycle is None else ('recursion', cycle)
    return ' '.join([word, root + ':', *(program.names[each] for each in methods)])


def roots_of(program):
    """the methods of the files' classes within which there is at most one cycle of calls, so that it is known which is found"""
    return [program.names[m] for m in range(len(program.coded)) if program.is_own(m) and program.cycles(m) != 'several']


def rows(title, main, files, roots=None):
    """the row of a program, and the lines that it has to give"""
    program = flow.Program(main, files)
    roots = roots_of(program) if roots is None else roots
    word = 'all' if title == 'worked' else 'show'
    row = ' '.join([word, title, main, ','.join(roots), *(data.hex() for data in files)])
    lines = [title]
    for m in range(len(program.coded)):
        if program.is_own(m) or word == 'all':
            lines += method_lines(program, m)
    return row, lines + [root_line(program, root) for root in roots]


def written(folder, all_rows):
    with open(os.path.join(folder, 'stdin'), 'w') as given, open(os.path.join(folder, 'stdout'), 'w') as wanted:
        for row, lines in all_rows:
            given.write(row + '\n')
            wanted.write(''.join(each + '\n' for each in lines))


def made_rows(first, count):
    for seed in range(first, first + count):
        yield rows('made%d' % seed, 'Main', made.Maker(seed, 10).made())


def usual():
    main, roots, files = worked()
    yield rows('worked', main, files, roots)
    for title, main, files in of_javac():
        yield rows(title, main, files)
    yield from made_rows(0, PROGRAMS)


if __name__ == '__main__':
    if sys.argv[1] == '--more':
        written(sys.argv[4], made_rows(int(sys.argv[2]), int(sys.argv[3])))
    else:
        written(sys.argv[1], usual())
