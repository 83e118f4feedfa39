#!/usr/bin/env python3
"""work.py [RUNS]: how many seconds of user time `jop work` takes, by the least of RUNS calls, with programs of some numbers of methods."""
import sys

from timing import JOP, folder, least


def main():
    runs = int(sys.argv[1]) if len(sys.argv) > 1 else 5
    with folder() as room:
        for n in (1, 10, 100, 1000):
            timed = least([JOP, 'work', str(n)], room, runs)
            assert timed.status == 0, timed.line
            print('%.3f s  %s' % (timed.seconds, timed.out.decode().strip()))


if __name__ == '__main__':
    main()
