#!/usr/bin/env python3
"""failing.py PLAIN CRATE: writes the rows of `profile` at the end of `stdin` and `stdout` of crates/test_commands, in place of those that stand there.

Each call on the files, the input, out and err fails in turn. A read that fails ends the run where the plain simulator, PLAIN, begins the step that reads.
"""
import json
import os
import sys

HERE = os.path.dirname(os.path.abspath(__file__))
sys.dont_write_bytecode = True
sys.path[:0] = [HERE, os.path.join(HERE, '../../harness')]
import hand_profiles as hand  # noqa: E402
from kind import sum_of  # noqa: E402
from simulated import READ, Machine, Simulated, profiled  # noqa: E402

GIVEN = b'ab'
MACHINES = (Machine(), Machine(cycles=900))


def text_of(put):
    return ''.join(line + '\n' for line in put)


def held(text, good):
    """what was put beside what is put where no call fails"""
    if not text:
        return 'nothing'
    return 'whole' if text == good else 'a front' if good.startswith(text) else 'other bytes'


def each(known, machine):
    """the rows of a machine, each with its lines"""
    status, _, put = profiled(known, machine, GIVEN, b'')
    good = text_of(put)
    whole = '  %d, out whole, err whole' % status
    reads = sum(here.step == READ and here.clock < machine.cycles for here in known.run(GIVEN, machine).heres)
    of_input = ['  4, out %s, err read fault' % held(text_of(profiled(known, machine, GIVEN, b'', number)[2]), good) for number in range(reads)]
    answers = {'/': ['  4, out nothing, err read fault'], '!': of_input, '^': ['  4, out nothing, err write fault', '  4, out a front, err write fault'],
               '?': ['  4, out whole, err write fault']}
    words = ''.join(word + ' ' for word in machine.options())
    for mark, lines in answers.items():
        different = [line for number, line in enumerate(lines) if number == 0 or line != lines[number - 1]]
        yield 'each %s <%s profile %si=@ b=' % (mark, GIVEN.hex(), words), ['each ' + mark, *different, whole]


def linked(known):
    """the row that links the program"""
    front = 'link --main A A.class'
    yield '%s=%s' % (front, known.files[0].hex()), ['%s -> 0, out %d bytes, sum %08x' % (front, len(known.data), sum_of(known.data)), '  ' + json.dumps(known.linked_line() + '\n')]


def put_behind(path, lines):
    """puts lines at the end of a file, in place of those from the first one of them on"""
    with open(path, encoding='utf-8') as file:
        there = file.read().splitlines()
    if lines[0] in there:
        there = there[:there.index(lines[0])]
    with open(path, 'w', encoding='utf-8') as file:
        file.write(''.join(line + '\n' for line in there + lines))


def main():
    known = Simulated(sys.argv[1], 'A', hand.reading())
    found = [*linked(known), *(row for machine in MACHINES for row in each(known, machine))]
    put_behind(os.path.join(sys.argv[2], 'stdin'), [row for row, _ in found])
    put_behind(os.path.join(sys.argv[2], 'stdout'), [line for _, lines in found for line in lines])


if __name__ == '__main__':
    main()
