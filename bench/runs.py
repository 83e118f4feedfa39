#!/usr/bin/env python3
"""runs.py [CYCLES] [RUNS]: how many cycles of the machine a second of user time takes, by the least of RUNS runs of CYCLES cycles each.

The loops, where `javac` is found, are `ints`, numbers in local variables; `calls`, a static method that is called; `arrays`, the elements of an array of int;
and Loop.java, calls and elements. Each is also profiled, by no bounds. Where `gcc` is, the plain simulator of tests/expected runs them too, and its cycles, hits and misses
are compared. `nops` is the longest bare image, 4,096 cycles, from the start of the process to its end.
"""
import os
import shutil
import subprocess
import sys

from timing import HERE, JOP, TOP, folder, least, link, put

MICROCODE = os.path.join(TOP, 'examples/machine/microcode.asm')


def java_source(body, more=''):
    return 'public class A { %s public static void main(String[] arguments) { %s } }' % (more, body)


SOURCES = {
    'ints': java_source('int sum = 0; while (true) { for (int i = 0; i < 1000; i++) { sum += i * i; sum ^= sum << 3; } }'),
    'calls': java_source('int sum = 0; while (true) { sum = add(sum, 1); }', 'static int add(int x, int y) { return x + y; }'),
    'arrays': java_source('int[] list = new int[16]; int at = 0; while (true) { list[at] += at; at = at + 1 & 15; }'),
}


def compiled(room, name, text):
    """the class file that javac makes of a text"""
    put(room, name + '.java', text.encode())
    words = ['javac', '--release', '8', '-nowarn', '-Xlint:-options', '-d', 'classes', name + '.java', os.path.join(TOP, 'examples/controller/jop/Io.java')]
    subprocess.run(words, cwd=room, check=True)
    with open(os.path.join(room, 'classes', name + '.class'), 'rb') as file:
        return file.read()


def plain_simulator(room):
    """the plain simulator, where gcc is found"""
    if not shutil.which('gcc'):
        print('gcc is missing, so the plain simulator is left out')
        return None
    subprocess.run(['gcc', '-O2', '-o', os.path.join(room, 'plain'), os.path.join(TOP, 'tests/expected/plain.c')], check=True)
    return os.path.join(room, 'plain')


def rate(timed, start):
    """the cycles per second of a run, without the time of one that stops at once"""
    cycles = int(timed.line.split('cycles=')[1].split()[0])
    return int(cycles / max(timed.seconds - start.seconds, 1e-6))


def measure(room, name, main, data, plain, cycles, runs):
    """runs a loop by the program, with and without a profile, and by the plain simulator"""
    linked = link(room, main, [data], 1)
    if linked.status != 0:
        print('%s: %s' % (name, linked.line))
        return
    words = [JOP, 'run', '--cycles', str(cycles), 'image']
    timed, start = least(words, room, runs), least([JOP, 'run', '--cycles', '0', 'image'], room, runs)
    print('%s jop cycles_per_second=%d (%s)' % (name, rate(timed, start), timed.line))
    put(room, 'bounds', b'')
    words = [JOP, 'profile', '--cycles', str(cycles), 'image', 'bounds']
    followed, start = least(words, room, runs), least([JOP, 'profile', '--cycles', '0', 'image', 'bounds'], room, runs)
    print('%s jop profile cycles_per_second=%d (%s)' % (name, rate(followed, start), followed.line))
    if plain:
        settings = ['1024', '262144', '16', '64', '1', '2']
        other = least([plain, MICROCODE, 'image', *settings, str(cycles)], room, runs)
        start = least([plain, MICROCODE, 'image', *settings, '0'], room, runs)
        same = 'as by jop' if (other.status, other.line) == (timed.status, timed.line) else other.line
        print('%s plain cycles_per_second=%d (%s)' % (name, rate(other, start), same))


def main():
    cycles = int(sys.argv[1]) if len(sys.argv) > 1 else 50000000
    runs = int(sys.argv[2]) if len(sys.argv) > 2 else 5
    with folder() as room:
        plain = plain_simulator(room)
        if shutil.which('javac'):
            for name, text in SOURCES.items():
                measure(room, name, 'A', compiled(room, 'A', text), plain, cycles, runs)
            with open(os.path.join(HERE, 'Loop.java')) as file:
                measure(room, 'Loop', 'Loop', compiled(room, 'Loop', file.read()), plain, 1000000000, runs)
        else:
            print('javac is missing, so the loops are left out')
        put(room, 'nops', b'JOPB\0\1\0\0\0\0\0\0\x10\0' + bytes(4095) + b'\xb1')
        print('nops jop seconds=%.4f' % least([JOP, 'run', 'nops'], room, runs).seconds)


main()
