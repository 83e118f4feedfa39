#!/usr/bin/env python3
"""failing_cycles.py PLAIN CRATE: writes the rows of `plan` and `cycle` at the end of `stdin` and `stdout` of crates/test_commands, in place of those that stand there.

Each call on the files, the input, out and err fails in turn. A read that fails ends the run where the plain simulator, PLAIN, begins the step that reads.
"""
import json
import os
import sys

HERE = os.path.dirname(os.path.abspath(__file__))
sys.dont_write_bytecode = True
sys.path.insert(0, HERE)
import hand_cycles as hand  # noqa: E402
from calls import out_text  # noqa: E402
from cyclic_rows import Cyclic, slots_of, table_of  # noqa: E402
from failing import held, put_behind  # noqa: E402
from simulated import READ, Machine  # noqa: E402

GIVEN = b'ab'


def lines_of(mark, lines, whole):
    """the lines of a row, those that are as the one before left away"""
    return ['each ' + mark, *(line for number, line in enumerate(lines) if number == 0 or line != lines[number - 1]), whole]


def cycles(known, machine):
    """the rows of `cycle` on a machine"""
    status, _, good = known.cycled(machine, GIVEN)
    reads = sum(here.step == READ and here.clock < machine.cycles for here in known.known.run(GIVEN, machine).heres)
    of_input = ['  4, out %s, err read fault' % held(known.cycled(machine, GIVEN, number)[2], good) for number in range(reads)]
    of_out = ['  4, out %s, err write fault' % held(good[:number], good) for number in range(len(good))]
    answers = {'/': ['  4, out nothing, err read fault'], '!': of_input, '^': of_out, '?': ['  4, out whole, err write fault']}
    words = ' '.join(['cycle --rounds 2', *machine.options()])
    for mark, lines in answers.items():
        row = 'each %s <%s %s t=%s f=%s' % (mark, GIVEN.hex(), words, table_of(known.slots).encode().hex(), hand.reading()[0].hex())
        yield row, lines_of(mark, lines, '  %d, out whole, err whole' % status)


def plans(known):
    """the rows of `plan`"""
    status, line, out = known.planned(Machine().timing, b'')
    assert status == 0 and out and not line
    answers = {'/': ['  4, out nothing, err read fault'], '^': ['  4, out nothing, err write fault'], '?': []}
    for mark, lines in answers.items():
        row = 'each %s plan --rounds 2 t=%s b= f=%s' % (mark, table_of(known.slots).encode().hex(), hand.reading()[0].hex())
        yield row, lines_of(mark, lines, '  0, out whole, err nothing')


def planned(known):
    """the row of a plan of which no call fails"""
    words, (status, line, out) = 'plan --rounds 2 t', known.planned(Machine().timing, b'')
    row = '%s=%s b= f=%s' % (words, table_of(known.slots).encode().hex(), hand.reading()[0].hex())
    return row, ['%s b f -> %d, out %s' % (words, status, out_text(out)), '  ' + json.dumps(line)]


def main():
    known = Cyclic(sys.argv[1], hand.reading(), slots_of('r'), 2)
    found = [planned(known), *plans(known), *(row for machine in (Machine(), Machine(cycles=700)) for row in cycles(known, machine))]
    put_behind(os.path.join(sys.argv[2], 'stdin'), [row for row, _ in found])
    put_behind(os.path.join(sys.argv[2], 'stdout'), [line for _, lines in found for line in lines])


if __name__ == '__main__':
    main()
