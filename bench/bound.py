#!/usr/bin/env python3
"""bound.py [NAME..]: how long `jop bound` takes beside `jop link` of the same class files, and a linear program of the same graph beside it.

The two are called by turns, three times each, or once where a bound takes over three seconds. The least processor time (user and system) of each is printed, with the memory of a bound beyond that of the linking and the
certificate, in bytes for each node, two for each byte of the class files; the answer, or that of `jop check` of the certificate; and the load of the machine. Where a certificate isn't held, the status is 1 in the end.

The programs are those of check.py, and

solved          a method of 10,000 nodes with 1,000 loops, ten deep
deep            65,500 bytes of loops within one another, as deep as branches reach
deepest_number  loops of two turns within one another as deep as a bound of 64 bits lets them be, as often as they go into 65,535 bytes
switching       a switch with 8,000 targets in two loops, one within the other
ring            1,000 methods that call one another in a ring

Of `solved` the linear program of its walks is written for GLPK and for lp_solve, and solved by those of `glpsol` and `lp_solve` that are installed (Debian's packages `glpk-utils` and
`lp-solve`): their optimum, which has to be the greatest walk of tests/expected/bounds, to a hundredth, and how long they take.
"""
import os
import re
import resource
import shutil
import subprocess
import time

from timing import JOP, put, tell_each

import bound_cases  # noqa: E402
import check_cases  # noqa: E402
import linear  # noqa: E402
from made import MAIN  # noqa: E402

MADE = {**{name: each for name, each in check_cases.MADE.items() if name not in ('too_big', 'names')}, **bound_cases.MADE}
ROOT = 'Main.main' + MAIN
# Calls of each command, and the seconds beyond which one is enough.
RUNS, LONG = 3, 3
# The programs that solve linear ones, with the words before the file and how each writes the optimum.
SOLVERS = {'glpsol': (['--lp'], rb'obj\s*=\s*([0-9.e+]+)'), 'lp_solve': (['-S3'], rb'objective function:\s*([0-9.e+]+)')}


class Took:
    """the processor time of a call, the most memory that it was seen to have, in bytes, and its last line"""

    def __init__(self, words, room, out):
        with open(os.path.join(room, out), 'wb') as put_out, open(os.path.join(room, 'err'), 'wb') as put_err:
            begun = subprocess.Popen([JOP, *words], stdout=put_out, stderr=put_err, cwd=room)
        self.memory, ended = 0, 0
        while not ended:
            self.memory = max(self.memory, memory_of(begun.pid))
            ended, begun.returncode, used = os.wait4(begun.pid, os.WNOHANG)
        self.seconds = used.ru_utime + used.ru_stime
        with open(os.path.join(room, 'err')) as err:
            self.line = err.read().strip()


def memory_of(process):
    """the most memory that a process has had in this program so far, in bytes"""
    with open('/proc/%d/status' % process) as status:
        found = re.search(r'VmHWM:\s*([0-9]+) kB', status.read())
    return 1024 * int(found[1]) if found else 0


def nodes(files):
    """how many numbers of nodes the codes of these class files have at most, by the sizes of the files"""
    return 2 * sum(map(len, files))


def tell(room, name):
    """prints how long a case takes, and gives whether the certificate is held where there is one"""
    case = MADE[name]()
    files = [put(room, '%d.class' % number, data) for number, data in enumerate(case.files)]
    put(room, 'bounds', case.bounds)
    links, bounds = [], []
    for _ in range(RUNS):
        links.append(Took(['link', '--main', 'Main', *files], room, 'image'))
        bounds.append(Took(['bound', *case.timing.options(), '--method', ROOT, 'image', 'bounds'], room, 'certificate'))
        if bounds[0].seconds > LONG:
            break
    link, bound = (min(calls, key=lambda call: call.seconds) for calls in (links, bounds))
    size = os.path.getsize(os.path.join(room, 'certificate'))
    said = bound.line or Took(['check', *case.timing.options(), 'image', 'bounds', 'certificate'], room, 'out').line
    more = bound.memory - link.memory - size
    print('%s: link %.3f s; bound %.3f s, %+.3f s; %+d bytes a node; certificate of %d bytes; load %.1f; %s' % (
        name, link.seconds, bound.seconds, bound.seconds - link.seconds, more // nodes(case.files), size, os.getloadavg()[0], said[:80]), flush=True)
    is_same = name != 'solved' or solve(room, case, bound.seconds - link.seconds)
    return is_same and (bool(bound.line) or said.startswith('holds ') or said.startswith('too big'))


def solve(room, case, seconds):
    """prints how long the solvers take for the linear program of the case, and gives whether their optimum is the greatest walk"""
    installed = {solver: said for solver, said in SOLVERS.items() if shutil.which(solver)}
    for solver in SOLVERS:
        if solver not in installed:
            print('%s: not installed' % solver, flush=True)
    walks = linear.walks_of(case, ROOT) if installed else None
    is_same = True
    for solver, (words, optimum) in installed.items():
        text = put(room, solver + '.lp', linear.program(walks, solver).encode())
        before, began = resource.getrusage(resource.RUSAGE_CHILDREN).ru_utime, time.monotonic()
        ran = subprocess.run([solver, *words, text], capture_output=True, cwd=room)
        took = resource.getrusage(resource.RUSAGE_CHILDREN).ru_utime - before
        found = re.findall(optimum, ran.stdout)
        is_same &= bool(found) and abs(float(found[-1]) - walks.greatest()) < 0.01
        print('%s: %.3f s (wall %.3f s), %.0f times; %s beside %d' % (
            solver, took, time.monotonic() - began, took / max(seconds, 1e-3), found[-1:] or ran.stdout[-200:], walks.greatest()), flush=True)
    return is_same


if __name__ == '__main__':
    tell_each(MADE, tell)
