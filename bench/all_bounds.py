#!/usr/bin/env python3
"""all_bounds.py [NAME..] [--count N]: how long `jop bound --all` and `jop profile` of no cycle take beside one `jop bound`, of the last method.

The three are called by turns, three times each. The least user time of each is printed, and how many lines `bound --all` has. Of 20,000 methods, or of N:

chain       each of which calls the one before
unbounded   so, where the first has a loop without a bound
recursive   so, where the first calls itself
callers     the second half of which each call the last of the first half, a chain, and themselves
twice       each of which calls the two before
"""
import sys

from timing import JOP, link, once, put, tell_each

from all_cases import MADE

RUNS = 3


def tell(room, name):
    """prints how long a case takes, and gives whether it was linked and answered"""
    program = MADE[name](*COUNT)
    if link(room, 'Main', program.classes(), 1).status:
        print('%s: not linked' % name)
        return False
    put(room, 'bounds', b'')
    last = program.count - 1
    words = {
        'bound': ['bound', '--method', '%s.m%d()V' % (program.owner(last), last), 'image', 'bounds'],
        'bound --all': ['bound', '--all', 'image', 'bounds'],
        'profile': ['profile', '--cycles', '0', 'image', 'bounds'],
    }
    timed = {each: [once([JOP, *one], room) for _ in range(RUNS)] for each, one in words.items()}
    print('%s: %s; %d lines' % (name, ', '.join('%s %.3f s' % (each, min(one.seconds for one in all_)) for each, all_ in timed.items()), timed['bound --all'][0].out.count(b'\n')))
    for each, all_ in timed.items():
        if all_[0].line:
            print('  %s: %s' % (each, all_[0].line[:100]))
    return not timed['bound --all'][0].status


if __name__ == '__main__':
    COUNT = ()
    if '--count' in sys.argv:
        at = sys.argv.index('--count')
        COUNT = (int(sys.argv[at + 1]),)
        del sys.argv[at:at + 2]
    tell_each(MADE, tell)
