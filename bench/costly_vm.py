#!/usr/bin/env python3
"""costly_vm.py [NAME N]..: how long a Java virtual machine takes for class files of costly.py; `links.py costly NAME N` links the same.

Of ten runs, or of as many as begin within half a minute, the least: the seconds in which the classes were loaded, linked and verified, by the clock, and the user
time of the process, which starts without a shared archive. It is ended behind a minute of processor time, and has six gigabytes of addresses. `nothing` is a class
with an empty main.
"""
import subprocess
import sys
import time

from timing import HERE, folder, once, put

import costly  # noqa: E402

USUAL = ['nothing', 0, 'overrides', 1000, 'frames', 16000, 'frames', 65533, 'known-frames', 4000, 'known-frames', 16000, 'handlers', 4000, 'targets', 500,
         'targets', 1000, 'targets', 2000, 'stores', 2000, 'stores', 4000, 'stores', 8000, 'interfaces', 16, 'interfaces', 20, 'interfaces', 24, 'interfaces', 500,
         'descriptors', 16000, 'branches', 8000, 'cases', 8000, 'waves', 8000, 'beginnings', 4000]
RUNS, SECONDS, LIMITS = 10, 30, ['--cpu=60', '--as=%d' % (6 << 30)]


def files_of(name, count):
    return [costly.main_of(lambda made: None)] if name == 'nothing' else costly.files_of(name, count)


def answer_of(ran):
    """the microseconds, and what came of it"""
    return ran.out.decode().split() if ran.status == 0 else ['0', 'ended with status %d' % ran.status]


def tell(loader, name, count):
    """loads the files of a program in processes of their own, and prints how long that took"""
    files, runs, began = files_of(name, count), [], time.monotonic()
    with folder() as room:
        for number, data in enumerate(files):
            put(room, '%d.class' % number, data)
        while len(runs) < RUNS and (not runs or time.monotonic() - began < SECONDS):
            words = ['prlimit', *LIMITS, 'java', '-Xshare:off', '-Xmx1g', '-cp', loader, 'Load', str(len(files))]
            runs.append(once(words, room))
    answers = [answer_of(ran) for ran in runs]
    print('%s %d: files=%d bytes=%d loading=%.3f process=%.3f runs=%d (%s)' % (
        name, count, len(files), sum(map(len, files)), min(int(words[0]) for words in answers) / 1e6, min(ran.seconds for ran in runs), len(runs),
        ', '.join(sorted({words[1] for words in answers}))), flush=True)


def main():
    words = sys.argv[1:] or USUAL
    with folder() as loader:
        subprocess.run(['javac', '-d', loader, HERE + '/Load.java'], check=True)
        for name, count in zip(words[::2], words[1::2]):
            tell(loader, name, int(count))


if __name__ == '__main__':
    main()
