#!/usr/bin/env python3
"""facts.py [--jop FILE] [--seed N] [NAME..]: how near bounds by facts come to the optimum, and how long they take beside bounds without.

The programs of javac in the tables get the least bounds that their runs keep and facts of places at random, counted off the runs, as tests/facts has them. `jop bound
--facts` puts a certificate for each method that runs; of each of its sections that has prices the linear program of the walks is written, with the bounds of loops and
the facts as rows and the costs of its nodes as the certificate's other sections give them, and solved by `glpsol` (Debian's package `glpk-utils`). Told are how many
sections there are, how many have a value within a hundredth of the optimum, the farthest one, and the processor time of all calls with and without facts.
"""
import argparse
import os
import random
import re
import resource
import shutil
import subprocess
import sys
import tempfile
from collections import Counter
from importlib.machinery import SourceFileLoader
from importlib.util import module_from_spec, spec_from_loader

HERE = os.path.dirname(os.path.abspath(__file__))
TESTS = os.path.join(HERE, '../tests')
sys.dont_write_bytecode = True
sys.path[:0] = [os.path.join(TESTS, part) for part in ('harness', 'expected/graphs', 'expected/bounds')]

from caller import Caller  # noqa: E402
from programs_run import Tried, asked_programs, bounds_text, copied  # noqa: E402
from rechecker.conditions import NEVER, SectionCheck, Prices, Values  # noqa: E402
from rechecker.facts import facts_of, read_facts  # noqa: E402
from rechecker.texts import read_certificate  # noqa: E402
from study import Study  # noqa: E402


def script(name):
    """a script of tests/ as a module"""
    loader = SourceFileLoader(name, os.path.join(TESTS, name))
    made = module_from_spec(spec_from_loader(name, loader))
    loader.exec_module(made)
    return made


FACTS = script('facts')


def words():
    """what the command line asks for"""
    parser = argparse.ArgumentParser(description=__doc__, formatter_class=argparse.RawDescriptionHelpFormatter)
    parser.add_argument('--jop', default=os.path.join(HERE, '../crates/jop/out/jop'), help='the program that is run')
    parser.add_argument('--seed', type=int, default=1, help='where the random numbers begin')
    parser.add_argument('names', nargs='*', help='parts of the names of the programs that are run')
    return parser.parse_args()


def sum_text(terms):
    """a sum of variables with their factors, each once, a variable a line"""
    total = Counter()
    for name, factor in terms:
        total[name] += factor
    return '\n '.join('%s %d %s' % ('-' if factor < 0 else '+', abs(factor), name) for name, factor in total.items() if factor) or '+ 0 x0'


def program_of(section, facts):
    """the linear program of the walks of a section that keep the bounds of its loops and these facts, in CPLEX's form"""
    into, out = {u: [] for u in section.nodes}, {u: [] for u in section.nodes}
    for n, (u, v) in enumerate(section.edges):
        out[u].append('e%d' % n)
        into[v].append('e%d' % n)
    entry = {each.header: ['e%d' % n for n, (u, v) in enumerate(section.edges) if v == each.header and u not in each.members] for each in section.loops}
    back = {each.header: ['e%d' % n for n, (u, v) in enumerate(section.edges) if v == each.header and u in each.members] for each in section.loops}
    ends = {u: 'x%d' % u for u in section.exits}
    # how often a node is visited: what leads to it, and the start
    visits = {u: [(name, 1) for name in into[u]] for u in section.nodes}
    cost = [(name, section.cost(u)) for u in section.nodes for name in into[u]]
    cost += [(name, each.fee or 0) for each in section.loops for name in entry[each.header]]
    rows = []
    for u in section.nodes:
        terms = [(name, 1) for name in out[u]] + ([(ends[u], 1)] if u in ends else []) + [(name, -1) for name in into[u]]
        rows.append('%s = %d' % (sum_text(terms), 1 if u == 0 else 0))
    for each in section.loops:
        start = each.bound if each.header == 0 else 0
        terms = [(name, 1) for name in back[each.header]] + [(name, -each.bound) for name in entry[each.header]]
        rows.append('%s <= %d' % (sum_text(terms), start))
    for (node, header), most in facts.items():
        started = most if header == 0 else 0
        terms = visits[node] + ([(name, -most) for name in entry[header]] if header is not None else [])
        limit = (most if header is None else started) - (1 if node == 0 else 0)
        rows.append('%s <= %d' % (sum_text(terms), limit))
    fixed = section.cost(0) + sum(each.fee or 0 for each in section.loops if each.header == 0)
    return 'Maximize\n obj: %s\nSubject To\n %s\nEnd\n' % (sum_text(cost), '\n '.join(rows)), fixed


def optimum(text, room):
    """what glpsol finds"""
    with open(os.path.join(room, 'walks.lp'), 'w') as file:
        file.write(text)
    ran = subprocess.run(['glpsol', '--lp', 'walks.lp', '-o', 'walks.out'], cwd=room, capture_output=True, text=True)
    with open(os.path.join(room, 'walks.out')) as file:
        found = re.search(r'Objective:.*= *([-0-9.e+]+)', file.read())
    return float(found[1]) if found and 'OPTIMAL' in ran.stdout else None


class Compared:
    """sections with prices beside their optima"""

    def __init__(self, room):
        self.room, self.count, self.near, self.farthest = room, 0, 0, (0, '')

    def compare(self, priced, certificate, facts, title):
        """each section with prices of a certificate"""
        values = Values(priced)
        for each in certificate.sections:
            section = SectionCheck(priced, values, each, Prices(each, facts), True)
            value = section.value()
            values.of_kind(each.kind)[each.method] = value
            if each.prices and value != NEVER:
                self.one(section, value, {(u, None if h is None else 2 * h): n for (m, u, h), n in facts.items() if m == each.method}, title)

    def one(self, section, value, facts, title):
        known = {at: most for at, most in facts.items() if at[0] in section.nodes and (at[1] is None or at[1] in section.headed)}
        text, fixed = program_of(section, known)
        found = optimum(text, self.room)
        if found is None:
            return
        best, self.count = found + fixed, self.count + 1
        over = (value - best) / best if best > 0 else 0
        self.near += over <= 0.01
        self.farthest = max(self.farthest, (over, '%s, method %d: %d, optimum %.1f' % (title, section.m, value, best)))


def spent(call):
    """the processor time of the children of a call, and what it answers"""
    before = resource.getrusage(resource.RUSAGE_CHILDREN)
    answer = call()
    behind = resource.getrusage(resource.RUSAGE_CHILDREN)
    return behind.ru_utime + behind.ru_stime - before.ru_utime - before.ru_stime, answer


def main():
    asked = words()
    if not shutil.which('glpsol'):
        print('bench: glpsol is missing: apt-get install glpk-utils')
        return 1
    plain = by_facts = 0
    with tempfile.TemporaryDirectory(prefix='jop-facts-') as room:
        jop, seen = copied(asked.jop, room), Compared(room)
        for program in asked_programs(asked.names):
            tried, caller, chance = Tried(*program), Caller(jop, tempfile.mkdtemp(dir=room)), random.Random('%s %s' % (program[0], asked.seed))
            tried.link(caller)
            timing = FACTS.SHAPES[0]
            runs = [tried.trace(caller, timing)]
            bounds = tried.bounds(runs)
            caller.put('bounds', bounds_text(bounds).encode())
            study = Study(tried.program, timing, bounds)
            text = FACTS.Facts(study, tried.numbers, runs).of(chance)
            caller.put('facts', text.encode())
            facts = facts_of(tried.program, read_facts(text.encode()))
            for name in sorted({each.method for each in runs[0]}):
                took, answer = spent(lambda: caller.call(['bound', '--method', name, 'image', 'bounds']))
                if answer.status:
                    continue
                plain += took
                took, answer = spent(lambda: caller.call(['bound', '--facts', 'facts', '--method', name, 'image', 'bounds']))
                by_facts += took
                seen.compare(study, read_certificate(answer.out.decode(), (1, 2, 3)), facts, '%s %s' % (program[0], name))
    print('%d sections with prices, %d within a hundredth of the optimum; the farthest %.2f %% above: %s' % (seen.count, seen.near, 100 * seen.farthest[0], seen.farthest[1]))
    print('seconds of the processor: %.2f without facts, %.2f with' % (plain, by_facts))
    return 0


if __name__ == '__main__':
    sys.exit(main())
