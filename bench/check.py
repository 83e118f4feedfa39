#!/usr/bin/env python3
"""check.py [NAME..]: how long `jop check` takes beside `jop link` of the same class files, with certificates that are made here.

The two are called by turns, three times each, or once where a check takes over three seconds. The least processor time (user and system) and the least wall time of each are printed, with the sizes of the three files, the
answer, and the load of the machine. Where a certificate has to hold and doesn't, the status is 1 in the end.

thousand      1,000 methods in a hundred classes, of a loop with a call, accesses to an array and branches
few_blocks    the same in a cache that holds few of them at once: most of their loops are no regions
loops         a method of 65,535 bytes with 16,383 loops, one behind the other
members       one loop of 131,068 members: a method of 65,535 bytes whose every instruction but one raises, each with an exception entry
interleaved   1,310 loops of 80 nodes, with 1,310 bytes from each instruction to the next one
nested        23 loops of some 98,000 members within one another, 15.8 MB of files
nodes         four sections of 98,300 nodes, with potentials of many digits, 14.3 MB of files
too_big       files of more than 16 MiB
overriding    1,023 classes that override one method, which is called 60,000 times
chain         20,000 methods, each of which calls the next one, in a cache of 256 blocks
regions       8,000 regions, each of which calls a method that 239 classes override
callers       20 methods that call one, which calls 15,000 times what 238 classes override
names         16,383 loops of a method with a name of 60,000 characters, of which one has a bound
"""
import os
import resource
import subprocess
import time

from timing import JOP, put, tell_each

from check_cases import MADE  # noqa: E402

# Calls of each command, and the seconds beyond which one is enough.
RUNS, LONG = 3, 3


class Took:
    """the wall time and the processor time of a call, and its last line"""

    def __init__(self, words, room):
        before, began = used(), time.monotonic()
        with open(os.path.join(room, 'out'), 'wb') as out:
            ran = subprocess.run([JOP, *words], stdout=out, stderr=subprocess.PIPE, cwd=room)
        self.wall, self.processor = time.monotonic() - began, used() - before
        self.line = ran.stderr.decode().strip()


def used():
    """the user and system time of the programs that were called"""
    children = resource.getrusage(resource.RUSAGE_CHILDREN)
    return children.ru_utime + children.ru_stime


def least(calls):
    return '%.3f s (wall %.3f s)' % (min(each.processor for each in calls), min(each.wall for each in calls))


def tell(room, name):
    """prints how long a case takes, and gives whether its answer is as it has to be"""
    case = MADE[name]()
    files = [put(room, '%d.class' % number, data) for number, data in enumerate(case.files)]
    linking, checking = ['link', '--main', 'Main', *files], ['check', *case.timing.options(), 'image', 'bounds', 'certificate']
    put(room, 'bounds', case.bounds)
    put(room, 'certificate', case.text)
    links, checks = [], []
    for _ in range(RUNS):
        links.append(Took(linking, room))
        os.replace(os.path.join(room, 'out'), os.path.join(room, 'image'))
        checks.append(Took(checking, room))
        if checks[0].processor > LONG:
            break
    more = min(each.processor for each in checks) - min(each.processor for each in links)
    sizes = '+'.join(str(os.path.getsize(os.path.join(room, each))) for each in ('image', 'bounds', 'certificate'))
    print('%s: link %s; check %s, %+.3f s; %s bytes; load %.1f; %s' % (
        name, least(links), least(checks), more, sizes, os.getloadavg()[0], checks[0].line[:80]), flush=True)
    return not case.holds or checks[0].line.startswith('holds ')


if __name__ == '__main__':
    tell_each(MADE, tell)
