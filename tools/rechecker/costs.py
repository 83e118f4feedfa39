"""What instructions, raise steps and loads cost, and which may raise, by docs/costs.md. Not proved: a tool.

A cost is the larger of some sums, each a number of cycles, so many for each cycle that a read (r) or a write (w) waits,
and so many for each pair of a lookupswitch.
"""
import os
import re

DOCUMENT = os.path.join(os.path.dirname(os.path.realpath(__file__)), '../../docs/costs.md')
INVOKES = range(182, 186)
ROW = re.compile(r'^\| (\d+) \| \w+ \| ([^|]*) \|[^|]*\|([^|]*)\|$', re.M)
TERM = re.compile(r'(\d*)(r|w| per pair|)')
RAISE = re.compile(r'It costs (\d+) \+ (\d+)r and (\d+) \+ (\d+)r per entry')
LOAD = re.compile(r'comes on top: (\d+) cycles and `(\d+) \+ r` for each of its words')


class Timing:
    """the cycles that reads and writes wait, and the method cache: its blocks, and the words of each"""

    def __init__(self, read=1, write=2, blocks=16, block_words=64):
        self.read, self.write, self.blocks, self.block_words = read, write, blocks, block_words

    def options(self):
        """the words of a command that ask for it"""
        given = [
            ('--blocks', self.blocks, 16), ('--block-words', self.block_words, 64),
            ('--read', self.read, 1), ('--write', self.write, 2),
        ]
        return [word for name, value, usual in given if value != usual for word in (name, str(value))]


def sum_of(text):
    """a sum as a dictionary: the number that stands with each of '', 'r', 'w' and ' per pair'"""
    found = {}
    for term in text.strip().split(' + '):
        number, letter = TERM.fullmatch(term).groups()
        found[letter] = int(number or 1)
    return found


def sums_of(text):
    """the sums of which a cost is the largest"""
    text = text.strip()
    if text.startswith('the larger of '):
        return [sum_of(each) for each in text[len('the larger of '):].split(' and ')]
    return [sum_of(text)]


class Costs:
    """the costs of the document"""

    def __init__(self, document=DOCUMENT):
        with open(document, encoding='utf-8') as file:
            text = file.read()
        one_line = ' '.join(text.split())
        rows = [(int(op), cycles, raises) for op, cycles, raises in ROW.findall(text)]
        self.rows = {op: sums_of(cycles) for op, cycles, _ in rows}
        self.raises = {op for op, _, raises in rows if raises.strip() == 'yes'}
        self.raising = [int(each) for each in RAISE.search(one_line).groups()]
        self.loading = [int(each) for each in LOAD.search(one_line).groups()]

    def instruction(self, op, timing, pairs=0):
        """the cycles of the instruction with this first byte"""
        each = {'': 1, 'r': timing.read, 'w': timing.write, ' per pair': pairs}
        return max(sum(number * each[letter] for letter, number in found.items()) for found in self.rows[op])

    def raise_step(self, timing, entries):
        """the cycles of a raise step of a method whose exception table has so many entries"""
        fixed, waits, entry, entry_waits = self.raising
        return fixed + waits * timing.read + (entry + entry_waits * timing.read) * entries

    def load(self, timing, words):
        """the cycles that the load of a method of so many words stalls"""
        fixed, word = self.loading
        return fixed + words * (word + timing.read)

    def greatest_invoke(self, timing):
        return max(self.instruction(op, timing) for op in INVOKES)


COSTS = Costs()
