"""The methods of a program by number, what its invokes may run, and what that costs. Not proved: a tool."""
from .class_files import class_name, instructions, read_class
from .core_classes import boot_class, core_classes
from .costs import COSTS
from .graphs import pairs_of
from .hierarchy import ABSTRACT
from .image_words import Image
from .names import written

VIRTUAL, SPECIAL, STATIC_CALL, INTERFACE_CALL = 182, 183, 184, 185
CALLS = {VIRTUAL, SPECIAL, STATIC_CALL, INTERFACE_CALL}


class Program:
    """core classes, those of the files and `jop/Boot`; `called` has a method's targets by the place of the invoke"""

    def __init__(self, main, files):
        core, own = core_classes(), [read_class(data) for data in files]
        by_name = {c.name: c for c in [*core, *own]}
        name = main if isinstance(main, bytes) else main.encode()
        self.classes = [*core, *own, boot_class(own, by_name, name)]
        self.image = Image(self.classes)
        self.coded, self.first_own = self.image.coded, len(core)
        self.number = {method: n for n, method in enumerate(self.coded)}
        self.names = [self.name(method) for method in self.coded]
        self.selected, self.reached, self.begun = {}, {}, {}
        self.called = [self.calls(method) for method in self.coded]
        self.runs = [sorted({t for targets in calls.values() for t in targets}) for calls in self.called]

    def name(self, method):
        found = self.image.method(method)
        name = self.classes[method[0]].name + b'.' + found['name'] + found['descriptor']
        return written(name)

    def body(self, n):
        return self.image.method(self.coded[n])['code']

    def starts(self, n):
        """the first bytes of a method's instructions by their places"""
        if n not in self.begun:
            self.begun[n] = {at: op for at, op, _ in instructions(self.body(n)['code'])}
        return self.begun[n]

    def is_own(self, n):
        """whether the method is of the files' classes, or the one that starts the program"""
        return self.coded[n][0] >= self.first_own

    # ---- what invokes may run

    def calls(self, method):
        """the methods that each invoke may run, by its place"""
        current, code = self.classes[method[0]], self.image.method(method)['code']['code']
        invokes = [(at, op, index) for at, op, index in instructions(code) if op in CALLS]
        return {at: self.targets(method[0], op, self.named(current, index)) for at, op, index in invokes}

    def named(self, current, index):
        """the number of the class, and the name and descriptor, of an entry of a class's pool"""
        _, owner, pair = current.pool[index]
        _, name, descriptor = current.pool[pair]
        return self.image.number[class_name(current, owner)], (current.pool[name][1], current.pool[descriptor][1])

    def targets(self, current, op, named):
        """the numbers of the methods that an invoke in a class may run (6.5)"""
        if op == SPECIAL:
            return [self.number[self.image.special(current, *named)]]
        resolved = self.image.find_method(*named)
        if op == STATIC_CALL:
            return [self.number[resolved]]
        if resolved not in self.selected:
            self.selected[resolved] = self.below(resolved)
        return self.selected[resolved]

    def below(self, resolved):
        """what is selected in the classes that have instances and are the method's class or interface, or below it"""
        found = set()
        for c, each in enumerate(self.classes):
            if not each.flags & ABSTRACT and resolved[0] in self.image.supers(c):
                found.add(self.number[self.image.select(c, resolved)])
        return sorted(found)

    def region(self, m):
        """the methods that may run while one does, it included"""
        if m not in self.reached:
            self.reached[m] = self.within([m])
        return self.reached[m]

    def within(self, first):
        """the methods that may run while these do, these included"""
        seen, todo = set(), list(first)
        while todo:
            m = todo.pop()
            if m not in seen:
                seen.add(m)
                todo += self.runs[m]
        return sorted(seen)

    def within_nodes(self, m, nodes):
        """the methods that may run while control of a method stays among these nodes, it included"""
        targets = [t for place, is_raise in nodes if not is_raise for t in self.called[m].get(place, [])]
        return sorted({m, *self.within(targets)})

    def blocks(self, methods, block_words):
        return sum(-(-words_of(self.body(m)) // block_words) for m in methods)


def words_of(body):
    return -(-len(body['code']) // 4)


class Priced:
    """a program with what its parts cost on a machine, and with bounds of loops by method's name and place"""

    def __init__(self, program, timing, bounds):
        self.program, self.timing, self.bounds = program, timing, bounds
        self.fitting = {}

    def bound(self, m, place):
        """the bound of the loop that an instruction heads, or none"""
        return self.bounds.get((self.program.names[m], place))

    def own(self, m, node):
        """what a node costs by itself"""
        place, is_raise = node
        body = self.program.body(m)
        if is_raise:
            return COSTS.raise_step(self.timing, len(body['handlers']))
        return COSTS.instruction(body['code'][place], self.timing, pairs_of(body['code'], place))

    def load(self, m):
        return COSTS.load(self.timing, words_of(self.program.body(m)))

    def loads(self, methods):
        return sum(self.load(m) for m in methods)

    def greatest_load(self):
        return max(self.load(m) for m in range(len(self.program.coded)))

    def callers_load(self, root):
        """the greatest load of a method that may call this one, 0 where none may"""
        return max((self.load(m) for m, targets in enumerate(self.program.runs) if root in targets), default=0)

    def blocks(self, methods):
        return self.program.blocks(methods, self.timing.block_words)

    def fit(self, methods):
        return self.blocks(methods) <= self.timing.blocks

    def region(self, m):
        return self.program.region(m)

    def region_fits(self, m):
        if m not in self.fitting:
            self.fitting[m] = self.fit(self.region(m))
        return self.fitting[m]

    def too_long(self):
        """the first method that doesn't fit the cache alone, with its blocks, or none"""
        alone = ((m, self.blocks([m])) for m in range(len(self.program.coded)))
        return next((each for each in alone if each[1] > self.timing.blocks), None)

    def printed_with(self, full, back=None):
        """what is printed of a method by its number with all loads, none where it never ends; behind it a load, which is the greatest one
        where none is said"""
        if full is None:
            return None
        return COSTS.greatest_invoke(self.timing) + full + (self.greatest_load() if back is None else back)
