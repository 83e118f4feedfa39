"""The order in which classes are linked: behind those that their initialisers use (JVM Specification SE 8, 5.5). Not proved: a tool.

The machine runs all initialisers in the order of the class files, before `main`; a Java virtual machine runs one where its
class is first used. Both do the same where each class stands behind those that its initialiser uses: by `new`, `getstatic`,
`putstatic` and `invokestatic` in it, and in all that it calls.
"""
from rechecker.class_files import class_name, instructions

GETSTATIC, PUTSTATIC, VIRTUAL, SPECIAL, STATIC_CALL, INTERFACE_CALL, NEW = 178, 179, 182, 183, 184, 185, 187
INITIALISER = (b"<clinit>", b"()V")


class Uses:
    """which classes each initialiser uses, of classes by name"""

    def __init__(self, classes):
        self.classes = {c.name: c for c in classes}
        self.methods = {(c.name, m["name"], m["descriptor"]): m for c in classes for m in c.methods}
        self.fields = {(c.name, f["name"], f["descriptor"]) for c in classes for f in c.fields}
        self.above = {name: self.supers(name) for name in self.classes}
        self.declaring = {}
        for name, method, descriptor in self.methods:
            self.declaring.setdefault((method, descriptor), []).append(name)

    def supers(self, name):
        """a class with all above it, the nearest first, as far as they are here"""
        found, todo = [], [name]
        while todo:
            c = self.classes.get(todo.pop(0))
            if c and c.name not in found:
                found.append(c.name)
                todo += [*([c.super_name] if c.super_name else []), *c.interfaces]
        return found

    def has_initialiser(self, name):
        return (name, *INITIALISER) in self.methods

    def found(self, owner, member, table):
        """the class that declares a member, from a class on"""
        return next((name for name in self.above.get(owner, ()) if (name, *member) in table), None)

    def targets(self, op, owner, member):
        """the methods that an invoke may run"""
        declared = self.found(owner, member, self.methods)
        found = [declared] if declared else []
        if op in (VIRTUAL, INTERFACE_CALL):
            found += [name for name in self.declaring.get(member, ()) if owner in self.above[name] and name not in found]
        return [(name, *member) for name in found]

    def step(self, c, op, index):
        """the class that an instruction initialises, if it is here, and the methods that it may run"""
        if op == NEW:
            return class_name(c, index), []
        if op not in (GETSTATIC, PUTSTATIC, VIRTUAL, SPECIAL, STATIC_CALL, INTERFACE_CALL):
            return None, []
        _, owner, pair = c.pool[index]
        owner, (_, name, descriptor) = class_name(c, owner), c.pool[pair]
        member = c.pool[name][1], c.pool[descriptor][1]
        if op in (GETSTATIC, PUTSTATIC):
            return self.found(owner, member, self.fields), []
        targets = self.targets(op, owner, member)
        return (targets[0][0] if op == STATIC_CALL and targets else None), targets

    def of(self, name):
        """the classes with initialisers that the initialiser of a class uses, with those above them"""
        used, seen, todo = set(self.above[name]), set(), [(name, *INITIALISER)]
        while todo:
            key = todo.pop()
            if key in seen or "code" not in self.methods[key]:
                continue
            seen.add(key)
            c = self.classes[key[0]]
            for _, op, index in instructions(self.methods[key]["code"]["code"]):
                touched, targets = self.step(c, op, index)
                used |= set(self.above.get(touched, ()))
                todo += targets
        return {each for each in used if each != name and self.has_initialiser(each)}


def closed(needs):
    """the same with all that is needed in turn"""
    found = {}
    for name in needs:
        seen, todo = set(), list(needs[name])
        while todo:
            each = todo.pop()
            if each not in seen:
                seen.add(each)
                todo += needs[each]
        found[name] = seen
    return found


def order(classes):
    """the places of the classes in an order for `link`, and the names of those of which each needs another, as lists"""
    uses = Uses(classes)
    names = [c.name for c in classes]
    needs = closed({name: uses.of(name) for name in names if uses.has_initialiser(name)})
    placed = {}

    def place(name):
        for each in names:  # those that need this one in turn stay as named
            if each in needs.get(name, ()) and name not in needs[each] and each not in placed:
                place(each)
        placed.setdefault(name, len(placed))
    for name in names:
        place(name)
    rings = {frozenset({name, *(each for each in needs[name] if name in needs[each])}) for name in needs if name in needs[name]}
    return sorted(range(len(names)), key=lambda k: placed[names[k]]), [sorted(ring, key=names.index) for ring in rings]
