#!/usr/bin/env python3
"""cross.py FIRST COUNT: these scripts against one another, over made programs.

Of each method that has a bound, certificates of both versions are made, and have to hold with its number. Then each potential and each iteration's cost in turn is lowered
by one: the fault has to be told of an edge that leaves the node, or of the exit there; and of an edge back to the header. The greatest walks are compared where they are
worked out (walks.py).
"""
import os
import random
import sys

HERE = os.path.dirname(os.path.abspath(__file__))
sys.dont_write_bytecode = True
sys.path[:0] = [HERE, os.path.join(HERE, '../graphs')]
import flow  # noqa: E402
import made  # noqa: E402
from certificate import Maker, check, shown  # noqa: E402
from costs import Timing  # noqa: E402
from study import Study  # noqa: E402


def bounds_of(program, chance):
    """a bound for each loop"""
    bounds = {}
    for m, name in enumerate(program.names):
        for place, _ in flow.Graph(program.body(m)).loops() or {}:
            bounds[name, place] = chance.choice([0, 1, 2, 3, 5])
    return bounds


def lowered(study, certificate):
    """what is said of the certificate with each number lowered in turn, and whether it is told where it has to be"""
    for section in certificate.sections:
        name = study.program.names[section.method]
        for n, (u, potential) in enumerate(section.nodes):
            section.nodes[n] = u, potential - 1
            line = check(study, certificate)
            section.nodes[n] = u, potential
            yield line.startswith(('check: edge %s %s ' % (name, shown(u)), 'check: exit %s %s' % (name, shown(u))))
        for n, (word, header, cost, members) in enumerate(section.loops):
            section.loops[n] = word, header, cost - 1, members
            line = check(study, certificate)
            section.loops[n] = word, header, cost, members
            yield line.startswith('check: edge %s ' % name)


def crossed(seed):
    """how many certificates of a made program hold, and how many lowered numbers were told"""
    program, chance = flow.Program('Main', made.Maker(seed, 10).made()), random.Random(seed)
    study = Study(program, chance.choice([Timing(), Timing(3, 7, 4, 16), Timing(63, 0, 6, 32)]), bounds_of(program, chance))
    hold = told = 0
    for m in range(len(program.coded)):
        if not program.is_own(m) or study.cause(program.names[m]) is not None:
            continue
        for version in (1, 2):
            certificate = Maker(study, version).made(m)
            number = 'never' if certificate.bound is None else str(certificate.bound)
            assert check(study, certificate) == 'holds %s %s' % (program.names[m], number)
            assert certificate.bound == study.printed(m) or version == 1 and not study.region_fits(m)
            hold += 1
            if chance.random() < 0.1:
                found = list(lowered(study, certificate))
                assert all(found), (seed, program.names[m])
                told += len(found)
    return hold, told


if __name__ == '__main__':
    first, count = int(sys.argv[1]), int(sys.argv[2])
    sums = [sum(each) for each in zip(*(crossed(seed) for seed in range(first, first + count)))]
    print('%d certificates hold, %d lowered numbers are told' % tuple(sums))
