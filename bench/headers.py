#!/usr/bin/env python3
"""headers.py: how long `jop loops` and `jop headers` take beside `jop link` of the same class files: 1,000 methods in a hundred classes, of a loop with a call,
accesses to an array and branches.

The three are called by turns. The least processor time (user and system) of each is printed, and how often that of linking goes into it."""
import os

from check import Took
from check_cases import MADE
from timing import folder, put

RUNS = 40


def main():
    case = MADE['thousand']()
    with folder() as room:
        files = [put(room, '%d.class' % number, data) for number, data in enumerate(case.files)]
        words = {'link': ['link', '--main', 'Main', *files], 'loops': ['loops', 'image'], 'headers': ['headers', 'image']}
        took = {name: [] for name in words}
        for _ in range(RUNS):
            for name, each in words.items():
                took[name].append(Took(each, room).processor)
                if name == 'link':
                    os.replace(os.path.join(room, 'out'), os.path.join(room, 'image'))
        for name, times in took.items():
            print('%s: %.4f s, %.2f times linking' % (name, min(times), min(times) / min(took['link'])))


if __name__ == '__main__':
    main()
