#!/usr/bin/env python3
"""certs.py [RUNS]: how long texts of certificates of 16 MiB take to be read and written, by the built `crates/test_readers/out/test_readers` or the one that the variable `CERTS` names.

Three rows are run for each text, the least of so many times (3 by default). One is refused at its first line, so that only the row is fetched; one is refused behind its last line,
so it is read as well; and one is read, put together anew, written and compared. The differences are what reading takes, and what writing and comparing take.
"""
import os
import resource
import subprocess
import sys

from timing import TOP, folder, put

CERTS = os.environ.get('CERTS', os.path.join(TOP, 'crates/test_readers/out/test_readers'))
SIZE = 1 << 24
END = '|bound 9'


def up_to_size(head, parts):
    """a text of at most SIZE bytes, with as many of the parts as there is room for"""
    text, room = [head], SIZE - len(head) - len(END)
    for part in parts:
        room -= len(part)
        if room < 0:
            break
        text.append(part)
    return ''.join(text) + END


def numbers():
    """0, 1, 2 and so on"""
    number = 0
    while True:
        yield number
        number += 1


def nodes():
    """a section of many nodes"""
    return up_to_size('JOPC 1|root 7|section inside 7', ('|node %d %d' % (n, 3 * n) for n in numbers()))


def loops():
    """a section of many loops of two members"""
    return up_to_size('JOPC 2|root 7|section loops 7|node 0 1', ('|region %d 7 %d %dr' % (n, n, n) for n in numbers()))


def members():
    """loops of 131,070 members each"""
    line = ''.join(' %d %dr' % (n, n) for n in range(65535))
    return up_to_size('JOPC 1|root 7|section inside 7', ('|loop %d 7%s' % (n, line) for n in numbers()))


def sections():
    """many sections of few nodes"""
    return up_to_size('JOPC 1|root 7', ('|section inside %d|node 0 12' % n for n in numbers()))


def processor():
    """the user and system time of the programs that were called"""
    used = resource.getrusage(resource.RUSAGE_CHILDREN)
    return used.ru_utime + used.ru_stime


def once(path):
    """calls the program on a file, and gives what it shows and the processor time"""
    before = processor()
    with open(path, 'rb') as file:
        ran = subprocess.run([CERTS], stdin=file, capture_output=True)
    return ran.stdout.decode().strip(), processor() - before


def seconds(row, answer, room, runs):
    """the processor time of a row, with the answer that it has to have"""
    path = os.path.join(room, put(room, 'row', row.encode() + b'\n'))
    came = [once(path) for _ in range(runs)]
    if any(shown != answer for shown, _ in came):
        sys.exit('%s: wanted %s' % (came[0][0][:80], answer))
    return min(time for _, time in came)


def main():
    runs = int(sys.argv[1]) if len(sys.argv) > 1 else 3
    with folder() as room:
        for make in (nodes, loops, members, sections):
            text = make()
            lines = text.count('|') + 1
            fetched = seconds('#x' + text, 'bad line=1', room, runs)
            read = seconds('#%s|x' % text, 'bad line=%d' % (lines + 1), room, runs)
            written = seconds('#' + text, 'written', room, runs)
            print('%-10s %d bytes, %d lines: fetched in %.3f s, read in %.3f s, written and compared in %.3f s' % (make.__name__, len(text), lines, fetched, read - fetched, written - read))


if __name__ == '__main__':
    main()
