"""Classes above one another, and how methods and fields are found (JVM Specification SE 8, 5.4). Not proved: a tool.

A class is named by its number, a member by that of its class and its place among the class's members of its kind.
"""
from functools import lru_cache

ABSTRACT, INTERFACE, SUPER = 0x400, 0x200, 0x20
PUBLIC, PRIVATE, PROTECTED, STATIC = 1, 2, 4, 8


class Hierarchy:
    """classes by number, each with those above it among them; `coded` are the methods with code, by number"""

    def __init__(self, classes):
        self.classes = classes
        self.number = {c.name: i for i, c in enumerate(classes)}
        self.coded = [(c, i) for c, each in enumerate(classes) for i, m in enumerate(each.methods) if 'code' in m]
        self.own = [{} for _ in classes]
        for c, each in enumerate(classes):
            for i, m in reversed(list(enumerate(each.methods))):
                self.own[c][m['name'], m['descriptor']] = (c, i)
        self.chain, self.supers = lru_cache(None)(self.chain), lru_cache(None)(self.supers)
        self.overrides = lru_cache(None)(self.overrides)

    # ---- what stands above a class

    def superclass(self, c):
        name = self.classes[c].super_name
        return None if name is None else self.number[name]

    def is_interface(self, c):
        return bool(self.classes[c].flags & INTERFACE)

    def chain(self, c):
        """the class and its superclasses, the nearest first"""
        found = []
        while c is not None:
            found.append(c)
            c = self.superclass(c)
        return found

    def supers(self, c):
        """the class with all its superclasses and superinterfaces"""
        found, todo = set(), [c]
        while todo:
            x = todo.pop()
            if x not in found:
                found.add(x)
                todo += [self.number[name] for name in self.classes[x].interfaces]
                todo += [] if self.superclass(x) is None else [self.superclass(x)]
        return found

    def superinterfaces_in_order(self, c):
        """each before those that it extends"""
        found = []
        for name in self.classes[c].interfaces:
            found += [self.number[name], *self.superinterfaces_in_order(self.number[name])]
        return found

    def package(self, c):
        return self.classes[c].name.rpartition(b'/')[0]

    # ---- members

    def method(self, place):
        """the method at a place"""
        return self.classes[place[0]].methods[place[1]]

    def signature(self, place):
        """its name and descriptor"""
        return self.method(place)['name'], self.method(place)['descriptor']

    def declared(self, c, signature):
        """the method of this name and descriptor that the class declares, or none"""
        return self.own[c].get(signature)

    def find_method(self, c, signature):
        """the method of this name and descriptor that is found from a class or an interface on (5.4.3.3, 5.4.3.4)"""
        if signature[0] == b'<init>':
            return self.declared(c, signature)
        above = [c] if self.is_interface(c) else self.chain(c)
        order = [*above, *(i for k in above for i in self.superinterfaces_in_order(k))]
        return next((self.declared(k, signature) for k in order if self.declared(k, signature)), None)

    def special(self, c, owner, signature):
        """the method that an invokespecial in class c runs whose entry names this class (6.5)"""
        above = self.chain(c)[1:]
        if signature[0] == b'<init>' or not self.classes[c].flags & SUPER or owner not in above:
            return self.find_method(owner, signature)
        found = (self.declared(k, signature) for k in above)
        return next(x for x in found if x and not self.method(x)['flags'] & STATIC)

    def find_field(self, c, signature):
        """the field of this name and descriptor that is found from a class on (5.4.3.2)"""
        for i, f in enumerate(self.classes[c].fields):
            if (f['name'], f['descriptor']) == signature:
                return (c, i)
        above = [*map(self.number.get, self.classes[c].interfaces), *([] if self.superclass(c) is None else [self.superclass(c)])]
        return next((found for found in (self.find_field(k, signature) for k in above) if found), None)

    def overrides(self, m, a):
        """whether the method m overrides a (5.4.5)"""
        if self.signature(m) != self.signature(a) or (self.method(m)['flags'] | self.method(a)['flags']) & (PRIVATE | STATIC):
            return False
        if m[0] == a[0] or a[0] not in self.chain(m[0]):
            return False
        flags = self.method(a)['flags']
        if flags & (PUBLIC | PROTECTED) or self.package(m[0]) == self.package(a[0]):
            return True
        between = (self.declared(k, self.signature(m)) for k in self.chain(m[0])[1:] if a[0] in self.chain(k))
        return any(b and b != a and self.overrides(m, b) and self.overrides(b, a) for b in between)

    def select(self, c, a):
        """the method that runs for a where the object is of class c (6.5, invokevirtual, invokeinterface), or none"""
        for k in self.chain(c):
            x = self.declared(k, self.signature(a))
            if self.is_interface(a[0]):
                if x and self.method(x)['flags'] & PUBLIC and not self.method(x)['flags'] & STATIC:
                    return x
            elif x and (x == a or self.overrides(x, a)):
                return x
        return None
