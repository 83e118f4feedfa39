"""The conditions on a certificate, and the first that fails (docs/assessing.md, "The conditions"). Not proved: a tool.

A value is a number, `NEVER` or `ABSENT`. A node is a number, as in `texts`.
"""
from .graphs import Graph
from .texts import MOST, number_of, shown

NEVER, ABSENT = 'never', 'absent'


def more(value, cycles):
    """so many cycles more, where the value is a number"""
    return value if value in (NEVER, ABSENT) else value + cycles


class Fault(Exception):
    """a condition that fails: the word, the method and the nodes that are told"""

    def __init__(self, word, method, *nodes):
        super().__init__()
        self.word, self.method, self.nodes = word, method, nodes

    def line(self, names):
        name = names[self.method] if self.method < len(names) else '#%d' % self.method
        return ' '.join(['check:', self.word, name, *map(shown, self.nodes)])


class Values:
    """what the sections before one say of methods"""

    def __init__(self, priced):
        self.priced, self.inside, self.other = priced, {}, {}

    def of_kind(self, kind):
        return self.inside if kind == 'inside' else self.other

    def full(self, x):
        """the value of a method with all its loads"""
        if self.priced.region_fits(x):
            return more(self.inside.get(x, ABSENT), self.priced.loads(self.priced.region(x)))
        return more(self.other.get(x, ABSENT), self.priced.load(x))


class Loop:
    """a loop of a section: header, members, K, N (none without a line) and F (none where its region doesn't fit)"""

    def __init__(self, priced, m, word, header, iteration, members):
        self.header, self.members, self.iteration = header, set(members), iteration
        self.is_region, self.fee = word == 'region', 0
        if self.is_region:
            methods = priced.program.within_nodes(m, [(u // 2, u % 2 == 1) for u in members])
            self.fee = priced.loads(methods) if priced.fit(methods) else None
        self.bound = priced.bound(m, header // 2)

    def entry(self):
        return (self.bound or 0) * self.iteration + (self.fee or 0)

    def crosses(self, other):
        common = self.members & other.members
        return bool(common) and not self.members <= other.members and not other.members <= self.members

    def is_misplaced(self, others):
        """whether the header is misplaced for what is wrong with this loop, beside the others that have a member of it"""
        if self.header not in self.members or self.bound is None or any(map(self.crosses, others)):
            return True
        within = any(each.is_region and self.members <= each.members for each in others)
        return self.is_region and (self.fee is None or within)


class Prices:
    """what visits of nodes of a section's method give back, and what pays it: an activation, or entries of loops"""

    def __init__(self, section, facts):
        self.given, self.due, self.at_entries, self.held = {}, 0, {}, []
        for u, header, price in section.prices:
            most = facts[section.method, u, header]
            self.given[u] = self.given.get(u, 0) + price
            if header is None:
                self.due += price * most
            else:
                self.at_entries[2 * header] = self.at_entries.get(2 * header, 0) + price * most
                self.held.append((2 * header, u))

    def back(self, u):
        return self.given.get(u, 0)

    def due_at(self, header):
        return self.at_entries.get(header, 0)


class SectionCheck:
    """a section of a method with code, behind others whose values are known"""

    def __init__(self, priced, values, section, prices, is_paid):
        self.prices, self.is_paid = prices, is_paid
        self.priced, self.program, self.values, self.m = priced, priced.program, values, section.method
        self.calls = self.program.called[self.m]
        self.is_inside, self.potential = section.kind == 'inside', dict(section.nodes)
        self.loops = [Loop(priced, self.m, *each) for each in section.loops]
        self.headed = {each.header: each for each in self.loops}
        self.holding = {}
        for each in self.loops:
            for u in each.members:
                self.holding.setdefault(u, []).append(each)
        self.in_regions = {u for each in self.loops if each.is_region for u in each.members}
        stopped = {p for p, targets in self.calls.items() if all(self.told(p, t) == NEVER for t in targets)}
        graph = Graph(self.program.body(self.m), stopped)
        self.nodes = {number_of(u): u for u in graph.nodes}
        self.edges = [(number_of(u), number_of(v)) for u, v in graph.edges]
        self.exits = [number_of(u) for u in graph.exits]

    def told(self, p, t):
        """what the invoke at place p is told of the method t"""
        if self.is_inside or 2 * p in self.in_regions:
            value = self.values.inside.get(t, ABSENT)
        else:
            value = more(self.values.full(t), self.priced.load(self.m))
        own = self.priced.own(self.m, (p, False))
        return ABSENT if value not in (NEVER, ABSENT) and own + value > MOST else value

    def told_at(self, u):
        """what the node is told of all that it may run"""
        p, is_raise = self.nodes[u]
        return {} if is_raise else {t: self.told(p, t) for t in self.calls.get(p, [])}

    def cost(self, u):
        numbers = [value for value in self.told_at(u).values() if value not in (NEVER, ABSENT)]
        return self.priced.own(self.m, self.nodes[u]) + max(numbers, default=0)

    def value_at_start(self):
        """P(0) with what an entry there costs, none where 0 isn't listed"""
        if 0 not in self.potential:
            return None
        return self.potential[0] + (self.headed[0].entry() if 0 in self.headed else 0)

    def paid_value(self):
        """what an entry costs with all that is due, none where 0 isn't listed"""
        value = self.value_at_start()
        return value if value is None else value + self.prices.due + (self.prices.due_at(0) if 0 in self.headed else 0)

    def value(self):
        """the section's value, where no condition fails"""
        self.check_targets()
        self.check_places()
        self.check_edges()
        self.check_exits()
        return self.paid()

    def paid(self):
        """never where 0 isn't listed; of a section without prices, where the value is below 0, too"""
        value = self.paid_value()
        if value is None or value < 0 and not self.is_paid:
            return NEVER
        return max(value, 0)

    def check_targets(self):
        absent = [t for u in self.nodes for t, value in self.told_at(u).items() if value == ABSENT]
        if absent:
            raise Fault('missing', min(absent))

    def check_places(self):
        misplaced = set(self.misplaced())
        if misplaced:
            raise Fault('member', self.m, min(misplaced))

    def misplaced(self):
        """the nodes that are out of their place"""
        for u in [*self.potential, *(u for each in self.loops for u in each.members)]:
            if u not in self.nodes:
                yield u
        for each in self.loops:
            others = {id(other): other for u in each.members for other in self.holding[u] if other is not each}
            if each.is_misplaced(others.values()):
                yield each.header
        for u, v in self.edges:
            if any(u not in each.members and v != each.header for each in self.holding.get(v, [])):
                yield u
        if any(each.header != 0 for each in self.holding.get(0, [])) or max(self.value_at_start() or 0, self.paid_value() or 0) > MOST:
            yield 0
        for header, u in self.prices.held:
            if header not in self.headed or u not in self.headed[header].members:
                yield header

    def check_edges(self):
        for u, v in self.edges:
            if not self.descends(u, v):
                raise Fault('edge', self.m, u, v)

    def descends(self, u, v):
        if v not in self.potential:
            return True
        if u not in self.potential:
            return False
        has, needs, loop = self.potential[u] + self.prices.back(u), self.cost(u) + self.potential[v], self.headed.get(v)
        if loop is not None and u in loop.members:
            return has + loop.iteration >= needs
        return has >= needs + (loop.entry() + self.prices.due_at(v) if loop is not None else 0)

    def check_exits(self):
        for u in self.exits:
            if u not in self.potential or self.potential[u] + self.prices.back(u) < self.cost(u):
                raise Fault('exit', self.m, u)


class Certified:
    """a certificate beside a program: what is checked of it, and what is printed of its method"""

    def __init__(self, priced, certificate, facts):
        self.priced, self.certificate, self.facts = priced, certificate, facts
        self.methods, self.is_paid = range(len(priced.program.coded)), certificate.version == 3

    def check_prices(self):
        """each price is of a fact; facts in an activation of the root aren't given"""
        for m, u, _ in self.certificate.prices:
            raise Fault('price', m, u)
        for section in self.certificate.sections:
            for u, header, _ in section.prices:
                if (section.method, u, header) not in self.facts:
                    raise Fault('price', section.method, u)

    def values(self):
        """the values of all sections"""
        values = Values(self.priced)
        for section in self.certificate.sections:
            if section.method not in self.methods:
                raise Fault('missing', section.method)
            values.of_kind(section.kind)[section.method] = self.value(values, section)
        return values

    def value(self, values, section):
        return SectionCheck(self.priced, values, section, Prices(section, self.facts), self.is_paid).value()

    def printed(self):
        """what is printed of the method, none for never, where no condition fails"""
        self.check_prices()
        values, root = self.values(), self.certificate.root
        full = values.full(root) if root in self.methods else ABSENT
        if full == ABSENT:
            raise Fault('missing', root)
        back = self.priced.callers_load(root) if self.is_paid else None
        printed = self.priced.printed_with(None if full == NEVER else full, back)
        if self.certificate.bound != printed or (printed or 0) > MOST:
            raise Fault('region', root)
        return printed


def check(priced, certificate, facts=None):
    """the line that is answered to a certificate in its grammar, by facts where some are given"""
    names = priced.program.names
    try:
        printed = Certified(priced, certificate, facts or {}).printed()
    except Fault as fault:
        return fault.line(names)
    return 'holds %s %s' % (names[certificate.root], 'never' if printed is None else printed)
