#!/usr/bin/env python3
"""What crates/test_graphs must print of its rows of `walks` and `stops`, from the definitions alone: all walks that keep the bounds are made one after another, and
so are all iterations of each loop.

    walks.py rows [SEED COUNT]     prints the fixed rows of great costs, then COUNT rows of random reducible graphs with costs near 2^64
    walks.py printed STDIN         prints what must be printed of each such row of the table STDIN
"""
import random
import sys

MOST = 20_000  # walks that are made of one graph at most


def natural_loops(nodes, edges):
    """The members of each header's loop, by headers; none where some node isn't reached, or a cycle has no back edge."""
    def reached(without):
        seen, stack = set(), [0] if without != 0 else []
        while stack:
            u = stack.pop()
            if u not in seen:
                seen.add(u)
                stack += [v for (x, v) in edges if x == u and v != without]
        return seen
    if len(reached(None)) < nodes:
        return None
    dominated = {h: {u for u in range(nodes) if u not in reached(h)} for h in range(nodes)}
    back = [(u, h) for (u, h) in edges if u in dominated[h]]
    forward = [e for e in edges if e not in back]
    left = set(range(nodes))
    while True:
        first = [v for v in left if not any(t == v and s in left for (s, t) in forward)]
        if not first:
            break
        left -= set(first)
    if left:
        return None
    loops = {}
    for (u, h) in back:
        members, stack = loops.setdefault(h, {h}), [u]
        while stack:
            x = stack.pop()
            if x not in members:
                members.add(x)
                stack += [s for (s, t) in edges if t == x]
    return sorted(loops.items())


def walks(edges, costs, loops, bounds, loads, start, inside, stops, within=None):
    """The costs of the walks from `start` to a node of `stops` that keep the bounds. Where `inside`, the walk begins in the loops that hold `start`, and
    `within` holds the nodes to which it may go on."""
    def step(u, left, cost):
        after = []
        for (h, members), bound, load, more in zip(loops, bounds, loads, left):
            if u not in members:
                after.append(None)
            elif more is None:
                cost += load
                after.append(bound)
            elif u == h:
                if more == 0:
                    return None
                after.append(more - 1)
            else:
                after.append(more)
        return u, after, cost + costs[u]
    none = [None] * len(loops)
    first = (start, [b if start in m else None for (h, m), b in zip(loops, bounds)], costs[start]) if inside else step(start, none, 0)
    stack, found, made = [first], [], 0
    while stack:
        u, left, cost = stack.pop()
        made += 1
        if made > MOST:
            return None
        if u in stops:
            found.append(cost)
        for (x, v) in edges:
            if x == u and (within is None or v in within):
                more = step(v, left, cost)
                if more:
                    stack.append(more)
    return found


def solve(nodes, edges, exits, costs, bounds, loads):
    """The greatest cost of a walk to an exit, or None where there is no such walk, and whether iterations exceed 64 bits; or None where the graph isn't reducible, or has too many walks."""
    loops = natural_loops(nodes, edges)
    if loops is None or len(bounds) != len(loops):
        return None
    complete = walks(edges, costs, loops, bounds, loads, 0, False, set(exits))
    if complete is None:
        return None
    iterations = []
    for h, members in loops:
        back = {u for (u, v) in edges if v == h and u in members}
        made = walks(edges, costs, loops, bounds, loads, h, True, back, members - {h})
        if made is None:
            return None
        iterations.append(max(made))
    out = {u for u in exits}
    while True:
        more = {u for (u, v) in edges if v in out} - out
        if not more:
            break
        out |= more
    exceed = any(sum(cost for (h, m), cost in zip(loops, iterations) if u in m) >= 2 ** 64 for u in out)
    return (max(complete) if complete else None, exceed)


def text(nodes, edges, exits, costs, bounds, loads):
    fields = [str(nodes), ' '.join(f'{u}-{v}' for u, v in edges)] + [' '.join(map(str, numbers)) for numbers in (exits, costs, bounds, loads)]
    return ' | '.join(['walks'] + fields)


def read(line):
    nodes, edges, *fields = [field.strip() for field in line.split('|')[1:]]
    return [int(nodes), [tuple(map(int, edge.split('-'))) for edge in edges.split()]] + [list(map(int, field.split())) for field in fields]


def limited(value):
    return str(value) if value < 2 ** 64 else 'too large'


def printed(line):
    """What must be printed of a row, below the row."""
    nodes, edges, exits, costs, bounds, loads = read(line)
    value, exceed = solve(nodes, edges, exits, costs, bounds, loads)
    if value is None:
        yield '  longest none'
        yield '  greatest none'
    else:
        yield '  longest too large' if exceed or value >= 2 ** 64 else f'  longest {value}, accepted true'
        yield f'  greatest {limited(value)}' + (', iterations exceed' if exceed else '')
    yield f'  walks {"none" if value is None else value}'


def fixed():
    half = 2 ** 63
    # a loop of bound 0 of which an iteration exceeds 64 bits, and a walk beside it that costs 2^63
    yield (4, [(0, 1), (1, 2), (1, 3), (2, 1)], [3], [half - 2, 1, 2 ** 64 - 1, 1], [0], [0])
    # a call of that in a loop of bound 0, and of bound 1
    yield (3, [(0, 1), (1, 1), (1, 2)], [2], [0, half, 0], [0], [0])
    yield (3, [(0, 1), (1, 1), (1, 2)], [2], [0, half, 0], [1], [0])
    # ten loops, each in the next, of bound 1: far behind the headers costs add up beyond 64 bits, and no walk does
    n = 10
    edges = sorted([(u, u + 1) for u in range(n)] + [(n, u) for u in range(1, n + 1)] + [(1, n + 1)])
    yield (n + 2, edges, [n + 1], [0] * n + [2 ** 60, 0], [0] * (n - 1) + [1], [0] * n)
    yield (n + 2, edges, [n + 1], [0] * n + [2 ** 62, 0], [1] + [0] * (n - 1), [0] * n)
    # the greatest value, and one more
    yield (2, [(0, 1)], [1], [2 ** 64 - 2, 1], [], [])
    yield (2, [(0, 1)], [1], [2 ** 64 - 1, 1], [], [])
    # loads alone
    yield (3, [(0, 1), (1, 1), (1, 2)], [2], [0, 0, 0], [5], [2 ** 64 - 1])


def random_row(random):
    nodes = random.randint(3, 7)
    edges = sorted({(u, u + 1) for u in range(nodes - 1)} | {(random.randrange(nodes), random.randrange(nodes)) for _ in range(random.randint(2, 6))})
    loops = natural_loops(nodes, edges)
    if not loops:
        return None
    great = [0, 1, 2 ** 60, 2 ** 62, 2 ** 63 - 1, 2 ** 63, 2 ** 64 - 1]
    costs = [random.choice([0, 1, random.choice(great)]) for _ in range(nodes)]
    exits = sorted(random.sample(range(nodes), random.randint(0, 2)))
    bounds = [random.choice([0, 0, 1, 2]) for _ in loops]
    loads = [random.choice([0, 0, 3, random.choice(great)]) for _ in loops]
    return nodes, edges, exits, costs, bounds, loads


def rows(seed, count):
    yield from map(lambda row: text(*row), fixed())
    source, kept = random.Random(seed), {'none': 0, 'exceeds': 0, 'iterations': 0, 'both': 0, 'fits': 0}
    while sum(kept.values()) < count // len(kept) * len(kept):
        row = random_row(source)
        solved = row and solve(*row)
        if not solved:
            continue
        value, exceed = solved
        if value is None:
            kind = 'none'
        elif value < 2 ** 60 and not exceed:
            continue
        else:
            kind = {(False, False): 'fits', (True, False): 'exceeds', (False, True): 'iterations', (True, True): 'both'}[value >= 2 ** 64, exceed]
        if kept[kind] < count // len(kept):
            kept[kind] += 1
            yield text(*row)


def main():
    if sys.argv[1] == 'rows':
        for line in rows(*(map(int, sys.argv[2:]) if len(sys.argv) == 4 else (0, 0))):
            print(line)
        return
    with open(sys.argv[2]) as table:
        for number, line in enumerate(table, 1):
            if line.startswith('walks |'):
                print(f'{number}: {line.rstrip(chr(10))}')
                for more in printed(line):
                    print(more)


main()
