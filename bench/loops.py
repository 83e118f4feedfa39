#!/usr/bin/env python3
"""loops.py [NAME..]: how long `jop loops`, `jop loops --further` and `jop headers` take of one method of some 65,535 bytes.

The three are called by turns, five times each. The least user time of each is printed, and how many loops count.

small       3,800 loops that count, one behind the other
turned      7,200 such loops with the test behind the step
nests50     such loops, fifty within one another
nests100    a hundred
arms        one loop with two arms of 8,000 tests that leave it
variables   one loop with a test and a step of each of 3,200 local variables
stored      so of 2,500, behind 20,000 instructions that do nothing
switched    5,000 loops behind one switch, and 16,000 such instructions before that
spread      3,000 loops whose steps are far from their tests
chain       13,000 stores of what the store before has stored, each before it in the code
"""
from timing import JOP, link, once, tell_each

from loop_cases import MADE

RUNS = 5
WORDS = {'loops': ['loops', 'image'], 'loops --further': ['loops', '--further', 'image'], 'headers': ['headers', 'image']}


def tell(room, name):
    """prints how long a case takes, and gives whether it was linked and answered"""
    if link(room, 'M', [MADE[name]()], 1).status:
        print('%s: not linked' % name)
        return False
    timed = {each: [once([JOP, *words], room) for _ in range(RUNS)] for each, words in WORDS.items()}
    print('%s: %s' % (name, ', '.join('%s %.3f s' % (each, min(one.seconds for one in all_)) for each, all_ in timed.items())))
    print('  ' + ', '.join('%s %d lines' % (each, all_[0].out.count(b'\n')) for each, all_ in timed.items()))
    return not any(all_[0].status for all_ in timed.values())


if __name__ == '__main__':
    tell_each(MADE, tell)
