"""What `jop report` puts of a method, worked out from class files, docs/costs.md and a text of bounds alone, by the words of docs/commands.md.

Numbers, graphs and costs are those of ../bounds/study.py, the counts of greatest walks those of greatest.py, files and lines those of ../headers/sources.py.
"""
import os
import sys

HERE = os.path.dirname(os.path.abspath(__file__))
sys.path[:0] = [HERE, *(os.path.join(HERE, '..', part) for part in ('bounds', 'graphs', 'headers'))]
from costs import COSTS  # noqa: E402
from greatest import Counts  # noqa: E402
from sources import Sources  # noqa: E402
from study import Study, read_bounds  # noqa: E402


class Parts:
    """the parts of what is printed of a method; `sole` says that no other greatest walks have other ones"""

    def __init__(self, study, root):
        self.study, self.root, self.sole = study, root, True
        self.times, self.rows = {root: 1}, []
        self.loads = study.full(root) - asked(study, root)
        for m in callers_first(study, root):
            if self.times.get(m):
                self.take(m, self.times[m])
        self.invoke, self.back = COSTS.greatest_invoke(study.timing), study.greatest_load()
        assert sum(cycles for *_, cycles in self.rows) + self.loads + self.invoke + self.back == study.printed(root)

    def take(self, m, times):
        """takes the number of a method so many times"""
        study = self.study
        kind = 'inside' if study.region_fits(m) else 'loops'
        walks = study.walks(kind, m)
        counts = Counts(walks)
        self.sole = self.sole and counts.sole
        self.loads += times * sum(counts.entries[h] * walks.fee[h] for h in walks.loops)
        within = {u for h in study.charged(m) for u in study.live(m)[1][h]}
        for u in sorted(counts.visits):
            visits = times * counts.visits[u]
            if visits:
                self.rows.append((m, u[0], visits, visits * study.own(m, u)))
                self.call(m, u, visits, kind == 'loops' and u not in within)

    def call(self, m, node, visits, pays):
        """the method that counts where a node calls one, so many times; and what is paid for loads there"""
        study, (place, is_raise) = self.study, node
        targets = [] if is_raise else study.program.called[m].get(place, [])
        values = {t: study.back(m, t) if pays else study.inside(t) for t in targets}
        values = {t: value for t, value in values.items() if value is not None}
        if values:
            most = max(values.values())
            dearest = [t for t in sorted(values) if values[t] == most]
            self.sole = self.sole and len(dearest) == 1
            self.times[dearest[0]] = self.times.get(dearest[0], 0) + visits
            self.loads += visits * (most - asked(study, dearest[0]))


def asked(study, m):
    """the number of a method that is asked for: without loads where all that may run while it does fits the cache together, else with those of its loops"""
    return study.inside(m) if study.region_fits(m) else study.loops(m)


def callers_first(study, root):
    """the methods that may run while one does, each before those that it calls"""
    done, order = set(), []

    def visit(m):
        if m not in done:
            done.add(m)
            for t in study.program.runs[m]:
                visit(t)
            order.append(m)
    visit(root)
    return order[::-1]


class Reports:
    """the reports on the methods of a program"""

    def __init__(self, study, files):
        self.study, self.sources = study, Sources(study.program, files)

    def entries(self, parts):
        """the parts that stand on one line of a method's source, or at one place of it where none is told, as one: method, place, visits of the first node, all cycles; greatest first"""
        found = {}
        for m, place, visits, cycles in parts.rows:
            source = self.sources.at(m, place)
            key = m, source is None, place if source is None else source[1]
            first = found.setdefault(key, [m, place, visits, 0])
            first[3] += cycles
        return sorted(found.values(), key=lambda entry: (-entry[3], entry[0], entry[1]))

    def lines(self, parts):
        """the lines of a report"""
        bound = self.study.printed(parts.root)

        def part(cycles):
            return 'cycles=%d share=%d%%' % (cycles, 100 * cycles // bound)
        yield 'bound=%d' % bound
        for m, place, visits, cycles in self.entries(parts):
            yield '%s visits=%d %s' % (self.head(m, place), visits, part(cycles))
        for word, cycles in (('loads', parts.loads), ('invoke', parts.invoke), ('return', parts.back)):
            yield '%s %s' % (word, part(cycles))

    def head(self, m, place):
        source, name = self.sources.at(m, place), self.study.program.names[m]
        return '%s %d' % (name, place) if source is None else '%s:%d %s' % (*source, name)

    def report(self, root):
        """the lines of the report on a method that nothing refuses, and whether they are the only ones that may be put"""
        if self.study.printed(root) is None:
            return ['bound=never'], True
        parts = Parts(self.study, root)
        return list(self.lines(parts)), parts.sole


def answer(program, files, timing, text, method):
    """the lines of the report on a method, and whether they are the only ones; or the line that refuses"""
    too_long = Study(program, timing, {}).too_long()
    if too_long is not None:
        return 'method too long %s blocks=%d limit=%d' % (program.names[too_long[0]], too_long[1], timing.blocks), True
    bounds = read_bounds(text)
    if isinstance(bounds, str):
        return bounds, True
    study = Study(program, timing, bounds)
    cause = study.cause(method)
    return ('bound: ' + cause, True) if cause is not None else Reports(study, files).report(study.root(method))
