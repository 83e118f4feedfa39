"""Writes class files (JVM Specification SE 8, chapter 4) for all tables: the entries of a pool, attributes, codes, members and the file. Nothing in it is of `jop`.

Which entry stands where in a pool is the caller's affair, since files of tables are compared byte by byte: entries stand in the order in which they are first
asked for, each behind those that it names, or in front of them in a pool that is made so."""
import struct


def u1(n):
    return struct.pack('>B', n)


def u2(n):
    return struct.pack('>H', n)


def u4(n):
    return struct.pack('>I', n & 0xffffffff)


class Pool:
    """a constant pool (4.4), in which each entry stands once"""

    def __init__(self, front=False, pair_first=False):
        """front: an entry stands in front of those that it names; pair_first: a member's name and type are asked for before its class"""
        self.front, self.pair_first = front, pair_first
        self.places, self.entries, self.next = {}, [], 1

    def entry(self, key, make, size=1):
        """the index of the entry with this key; make gives its bytes, and size is how many places it takes"""
        if key not in self.places:
            if self.front:
                place = self.place(key, size)
                self.entries[place] = make()
            else:
                data = make()
                self.entries[self.place(key, size)] = data
        return self.places[key]

    def place(self, key, size):
        self.places[key] = self.next
        self.next += size
        self.entries.append(b'')
        return len(self.entries) - 1

    def utf8(self, text):
        data = text.encode()
        return self.entry((1, text), lambda: u1(1) + u2(len(data)) + data)

    def int(self, value):
        return self.entry((3, value), lambda: u1(3) + u4(value))

    def long(self, value):
        return self.entry((5, value), lambda: u1(5) + struct.pack('>q', value), 2)

    def cls(self, name):
        return self.entry((7, name), lambda: u1(7) + u2(self.utf8(name)))

    def string(self, text):
        return self.entry((8, text), lambda: u1(8) + u2(self.utf8(text)))

    def pair(self, name, descriptor):
        return self.entry((12, name, descriptor), lambda: u1(12) + u2(self.utf8(name)) + u2(self.utf8(descriptor)))

    def member(self, tag, owner, name, descriptor):
        """a field (9), a method (10) or a method of an interface (11)"""
        def make():
            if self.pair_first:
                self.pair(name, descriptor)
            return u1(tag) + u2(self.cls(owner)) + u2(self.pair(name, descriptor))
        return self.entry((tag, owner, name, descriptor), make)

    def pool_bytes(self):
        return u2(self.next) + b''.join(self.entries)


def attribute(name, data):
    """an attribute (4.7) whose name has this index"""
    return u2(name) + u4(len(data)) + data


def attributes(them):
    return u2(len(them)) + b''.join(them)


def code(stack, local, body, table=(), others=()):
    """what a Code attribute has (4.7.3): a row of the table is start, end, handler, and the index of a class or 0"""
    rows = b''.join(struct.pack('>HHHH', *row) for row in table)
    return u2(stack) + u2(local) + u4(len(body)) + body + u2(len(table)) + rows + attributes(others)


def member(flags, name, descriptor, them=()):
    """a field or a method (4.5, 4.6) with these attributes, its name and descriptor by their indexes"""
    return u2(flags) + u2(name) + u2(descriptor) + attributes(them)


def class_file(pool, flags, this, above, interfaces=(), fields=(), methods=(), them=(), version=(0, 52)):
    """the bytes of a file (4.1): pool has its count in front, and the version is minor and major"""
    minor, major = version
    front = u4(0xcafebabe) + u2(minor) + u2(major) + pool + u2(flags) + u2(this) + u2(above)
    return front + b''.join(u2(len(each)) + b''.join(each) for each in ([u2(it) for it in interfaces], fields, methods)) + attributes(them)
