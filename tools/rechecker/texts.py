"""Texts of bounds and of certificates. Not proved: a tool.

The node at place p has the number 2p, its raise step 2p + 1.
"""
import re

MOST = 2**64 - 1
NUMBER = '(0|[1-9][0-9]*)'
BOUND = re.compile(b'([^ \n]+) %b %b' % (NUMBER.encode(), b'loop<=' + NUMBER.encode()))
NODE = re.compile(f'(node|raise) {NUMBER} (0|-?[1-9][0-9]*)')
LOOP = re.compile(f'(loop|region) {NUMBER} {NUMBER}((?: (?:0|[1-9][0-9]*)r?)+)')
PRICE = re.compile(f'price {NUMBER}(r?) {NUMBER}(?: per {NUMBER})?')
ROOT_PRICE = re.compile(f'price {NUMBER} {NUMBER}(r?) {NUMBER}')
MOST_METHOD, MOST_PLACE, MOST_BOUND = 2**32 - 1, 2**31 - 1, 2**32 - 1


def lines_of(text):
    """the lines of a text, the last of which may lack its end"""
    lines = text.split(b'\n' if isinstance(text, bytes) else '\n')
    return lines if lines[-1] else lines[:-1]


def read_bounds(text):
    """the bounds of a text by name and place, or what is said of the first line that is refused"""
    bounds = {}
    for number, line in enumerate(lines_of(text), 1):
        if not line or line.startswith(b'#'):
            continue
        found = BOUND.fullmatch(line)
        if not found or int(found[2]) > MOST_BOUND or int(found[3]) > MOST_BOUND:
            return 'bad bounds line=%d' % number
        key = found[1].decode('utf-8', 'surrogateescape'), int(found[2])
        if key in bounds:
            return 'twice bound line=%d' % number
        bounds[key] = int(found[3])
    return bounds


def shown(u):
    """a node as it is written"""
    return '%d%s' % (u // 2, 'r' if u % 2 else '')


def number_of(node):
    return 2 * node[0] + node[1]


class Section:
    """a kind, a method, nodes with their potentials, loops: a word, a header, what an iteration costs, members; and prices of facts: a
    node, the place of a header or none, what a visit gives back"""

    def __init__(self, kind, method, nodes, loops, prices=()):
        self.kind, self.method, self.nodes, self.loops, self.prices = kind, method, nodes, loops, list(prices)

    def lines(self):
        yield 'section %s %d' % (self.kind, self.method)
        for u, potential in self.nodes:
            yield '%s %d %d' % ('raise' if u % 2 else 'node', u // 2, potential)
        for word, header, cost, members in self.loops:
            yield ' '.join([word, str(header // 2), str(cost), *map(shown, members)])
        for u, header, price in self.prices:
            yield 'price %s %d' % (shown(u), price) + ('' if header is None else ' per %d' % header)


class Certificate:
    """a version, the method that it is of, sections, the last line's number, none where that is never, and prices of facts in an
    activation of that method: a method, a node, what a visit gives back"""

    def __init__(self, version, root, sections, bound, prices=()):
        self.version, self.root, self.sections, self.bound, self.prices = version, root, sections, bound, list(prices)

    def lines(self):
        yield 'JOPC %d' % self.version
        yield 'root %d' % self.root
        for m, u, price in self.prices:
            yield 'price %d %s %d' % (m, shown(u), price)
        for section in self.sections:
            yield from section.lines()
        yield 'bound never' if self.bound is None else 'bound %d' % self.bound

    def text(self):
        return ''.join(line + '\n' for line in self.lines())


class BadLine(Exception):
    """a line with which no certificate goes on"""


def require(condition):
    if not condition:
        raise BadLine


def limited(text, most):
    """the number of a text that has to be one, within its limit"""
    require(re.fullmatch(NUMBER, text) and int(text) <= most)
    return int(text)


# The kinds of sections by version.
KINDS = {1: ('inside', 'alone'), 2: ('inside', 'alone', 'loops'), 3: ('inside', 'loops')}


class Reader:
    """reads a certificate line by line, of version 3 only where facts are at hand"""

    def __init__(self, versions):
        self.versions = ['JOPC %d' % each for each in versions]
        self.version = self.root = self.bound = None
        self.sections, self.seen, self.prices, self.is_whole = [], set(), [], False

    def take(self, line):
        """takes the next line"""
        require(not self.is_whole)
        if self.version is None:
            require(line in self.versions)
            self.version = int(line[5:])
        elif self.root is None:
            require(line.startswith('root '))
            self.root = limited(line[5:], MOST_METHOD)
        elif line.startswith('bound '):
            self.bound = None if line == 'bound never' else limited(line[6:], MOST)
            self.is_whole = True
        elif line.startswith('section '):
            self.take_section(line.split(' '))
        elif self.version == 3 and line.startswith('price '):
            self.take_price(line)
        else:
            require(self.sections)
            self.take_part(self.sections[-1], line)

    def take_section(self, words):
        require(len(words) == 3 and words[1] in KINDS[self.version])
        kind, method = words[1], limited(words[2], MOST_METHOD)
        require((method, kind == 'inside') not in self.seen)
        self.seen.add((method, kind == 'inside'))
        self.sections.append(Section(kind, method, [], []))

    def take_price(self, line):
        """a price of a fact: before all sections of one in an activation of the root, and else of the section's method"""
        found = (PRICE if self.sections else ROOT_PRICE).fullmatch(line)
        require(found)
        if self.sections:
            u = 2 * limited(found[1], MOST_PLACE) + (found[2] == 'r')
            header = None if found[4] is None else limited(found[4], MOST_PLACE)
            self.add_price(self.sections[-1].prices, (u, header, limited(found[3], MOST)), lambda each: (each[1] is not None, each[0], each[1] or 0))
        else:
            u = 2 * limited(found[2], MOST_PLACE) + (found[3] == 'r')
            self.add_price(self.prices, (limited(found[1], MOST_METHOD), u, limited(found[4], MOST)), lambda each: each[:2])

    def add_price(self, prices, price, order):
        """a price behind others, which stand in their order"""
        require(price[2] > 0 and (not prices or order(prices[-1]) < order(price)))
        prices.append(price)

    def take_part(self, section, line):
        """a node or a loop of a section"""
        require(not section.prices)
        node, loop = NODE.fullmatch(line), LOOP.fullmatch(line)
        require(node or loop)
        if node:
            require(not section.loops and abs(int(node[3])) <= MOST)
            u = 2 * limited(node[2], MOST_PLACE) + (node[1] == 'raise')
            require(not section.nodes or section.nodes[-1][0] < u)
            section.nodes.append((u, int(node[3])))
        else:
            header, cost = 2 * limited(loop[2], MOST_PLACE), limited(loop[3], MOST)
            members = [2 * limited(each.rstrip('r'), MOST_PLACE) + each.endswith('r') for each in loop[4].split()]
            require(all(a < b for a, b in zip(members, members[1:])))
            require(not section.loops or section.loops[-1][1] < header)
            require(loop[1] == 'loop' or section.kind == 'loops')
            section.loops.append((loop[1], header, cost, members))


def read_certificate(text, versions=(1, 2)):
    """the certificate of a text, or what is said of the first line that is refused"""
    reader, lines = Reader(versions), lines_of(text)
    for number, line in enumerate(lines, 1):
        try:
            reader.take(line)
        except BadLine:
            return 'bad cert line=%d' % number
    if not reader.is_whole:
        return 'bad cert line=%d' % (len(lines) + 1)
    return Certificate(reader.version, reader.root, reader.sections, reader.bound, reader.prices)
