"""The linear program of the walks of a method: how often each edge is taken, so that the cost of the nodes is greatest.

What comes into a node leaves it, the first node is entered once, and the back edges of a loop are taken at most as often as its bound for each entry.
"""
import sys

from sections import flow
from study import Study, read_bounds


def walks_of(case, root):
    """the walks of the method of a case"""
    sys.setrecursionlimit(100000)
    study = Study(flow.Program('Main', case.files), case.timing, read_bounds(case.bounds))
    return study.walks('inside', study.root(root))


def program(walks, solver):
    """the text for `glpsol --lp` or for lp_solve"""
    rows = [(name, terms, sign, right) for name, terms, sign, right in constraints(walks)]
    objective = [(walks.cost[v], name) for name, u, v in edges(walks) if v is not None]
    if solver == 'glpsol':
        lines = ['Maximize', ' obj: ' + sum_of(objective), 'Subject To']
        lines += [' %s: %s %s %d' % (name, sum_of(terms), sign, right) for name, terms, sign, right in rows]
        return '\n'.join(lines + ['End', ''])
    lines = ['max: %s;' % sum_of(objective)]
    lines += ['%s: %s %s %d;' % (name, sum_of(terms), sign, right) for name, terms, sign, right in rows]
    return '\n'.join(lines + [''])


def sum_of(terms):
    return ' '.join('%s %d %s' % ('-' if factor < 0 else '+', abs(factor), name) for factor, name in terms)


def edges(walks):
    """each edge with a name, that into the first node from none, and one from each exit to none"""
    found = [(None, walks.first)] + [(u, v) for u in walks.order for v in walks.after[u]] + [(u, None) for u in walks.graph.exits if u in walks.ending]
    return [('x%d' % number, u, v) for number, (u, v) in enumerate(found)]


def constraints(walks):
    """the rows of the program: a name, terms of a factor and an edge's name, a sign and the right side"""
    into, out = {u: [] for u in walks.order}, {u: [] for u in walks.order}
    for name, u, v in edges(walks):
        if v is not None:
            into[v].append((u, name))
        if u is not None:
            out[u].append((v, name))
    yield 'start', [(1, 'x0')], '=', 1
    for number, u in enumerate(walks.order):
        yield 'n%d' % number, [(1, name) for _, name in into[u]] + [(-1, name) for _, name in out[u]], '=', 0
    for number, (h, members) in enumerate(walks.loops.items()):
        yield 'l%d' % number, [(1 if u in members else -walks.bound[h], name) for u, name in into[h]], '<=', 0
