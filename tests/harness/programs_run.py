"""Programs of javac in the tables, and their runs."""
import os
import shutil
import sys

HERE = os.path.dirname(os.path.abspath(__file__))
sys.path[:0] = [HERE] + [os.path.join(HERE, '..', part) for part in ('expected/graphs', 'expected/bounds')]

import flow  # noqa: E402
import rows as graphs  # noqa: E402
from calls import Call  # noqa: E402
from costs import Timing  # noqa: E402
from study import Study  # noqa: E402
from table import rows_of  # noqa: E402
from traces import activations, kept_bounds  # noqa: E402

# What a program reads that reads something else in no table.
INPUT = b'hello \xff\0world'


def inputs():
    """what the programs of a table read, by main class"""
    found, main = {}, None
    for _, row in rows_of(os.path.join(HERE, '../tables/programs.calls')):
        call = Call(row)
        if call.command() == 'link':
            main = call.words[2] if call.words[1] == '--main' else None
        elif call.command() == 'run' and call.streams.given:
            found.setdefault(main, call.streams.given)
    return found


def options(timing):
    """the words that ask for a machine"""
    return ['--blocks', str(timing.blocks), '--block-words', str(timing.block_words), '--read', str(timing.read), '--write', str(timing.write)]


def shown(timing):
    return ' '.join('%s=%s' % (name[2:], value) for name, value in zip(options(timing)[::2], options(timing)[1::2]))


class Tried:
    """a program of which the runs are compared with the numbers of its methods"""

    def __init__(self, title, main, files, given):
        self.title, self.main, self.files, self.given = title, main, files, given
        self.program = flow.Program(main, files)
        self.numbers = {name: m for m, name in enumerate(self.program.names)}

    def link(self, caller):
        """puts the image, or tells why there is none"""
        linked = caller.link(self.main, self.files)
        caller.put('image', linked.out)
        return linked.status == 0

    def trace(self, caller, timing):
        """the activations of a run"""
        return activations(caller.call(['trace', *options(timing), 'image'], self.given).out.decode())

    def bounds(self, runs):
        """the least bounds of all loops that all runs keep, by name and place"""
        study = Study(self.program, Timing(), {})
        return kept_bounds({name: study.live(m)[1] for name, m in self.numbers.items()}, runs)


def bounds_text(bounds):
    return ''.join('%s %d loop<=%d\n' % (name, place, bound) for (name, place), bound in sorted(bounds.items()))


def copied(program, room):
    """a copy of the program that can be run: what `rt ci` kept of an earlier run may lack the leave"""
    copy = os.path.join(room, 'jop')
    shutil.copyfile(program, copy)
    os.chmod(copy, 0o755)
    return copy


def asked_programs(names):
    """the programs, with what they read"""
    given = inputs()
    found = [(title, main, files, given.get(main, INPUT)) for title, main, files in graphs.of_javac()]
    return [each for each in found if not names or any(name in each[0] for name in names)]
