"""Which line of which file an instruction was compiled from, read of class files alone (JVM Specification SE 8, 4.7.10 and 4.7.12).

Names are bytes, as they stand in the class file; `written` has them as texts do. An attribute that isn't of its form tells nothing.
"""
import re

# The bytes behind the tag of an entry of the pool, but of a Utf8 entry.
SIZES = {3: 4, 4: 4, 5: 8, 6: 8, 7: 2, 8: 2, 9: 4, 10: 4, 11: 4, 12: 4, 15: 3, 16: 2, 18: 4}
TEXT, CLASS, LONG, DOUBLE = 1, 7, 5, 6


class Bytes:
    """bytes that are read from their front"""

    def __init__(self, data, at=0):
        self.data, self.at = data, at

    def take(self, count):
        self.at += count
        return self.data[self.at - count:self.at]

    def number(self, size):
        return int.from_bytes(self.take(size), 'big')


class Source:
    """the file of a class, and the tables of lines of its methods' codes"""

    def __init__(self, data):
        self.left = Bytes(data, 8)
        self.texts, self.classes = {}, {}
        self.read_pool()
        self.left.take(2)
        name = self.texts.get(self.classes.get(self.left.number(2)), b'')
        self.left.take(2)
        self.left.take(2 * self.left.number(2))
        self.members()
        self.tables = [self.table_of(attributes) for attributes in self.members()]
        self.file = self.file_of(name, self.attributes(self.left))

    def read_pool(self):
        index, count = 1, self.left.number(2)
        while index < count:
            tag = self.left.number(1)
            if tag == TEXT:
                self.texts[index] = self.left.take(self.left.number(2))
            elif tag == CLASS:
                self.classes[index] = self.left.number(2)
            else:
                self.left.take(SIZES[tag])
            index += 2 if tag in (LONG, DOUBLE) else 1

    def attributes(self, left):
        """the name and the bytes of each attribute that stands there"""
        return [(self.texts[left.number(2)], left.take(left.number(4))) for _ in range(left.number(2))]

    def members(self):
        """the attributes of each field or method"""
        return [self.member() for _ in range(self.left.number(2))]

    def member(self):
        self.left.take(6)
        return self.attributes(self.left)

    def table_of(self, attributes):
        """where lines start by all tables of a method's code, in their order: places and lines"""
        code = next((data for name, data in attributes if name == b'Code'), None)
        if code is None:
            return []
        left = Bytes(code, 4)
        left.take(left.number(4))
        left.take(8 * left.number(2))
        tables = [data for name, data in self.attributes(left) if name == b'LineNumberTable']
        return [start for data in tables for start in starts_of(data)]

    def file_of(self, name, attributes):
        """the file in the folder of the class's package, or none"""
        data = next((data for each, data in attributes if each == b'SourceFile'), b'')
        file = self.texts.get(int.from_bytes(data, 'big')) if len(data) == 2 else None
        return None if file is None else name[:name.rfind(b'/') + 1] + file

    def file_written(self):
        """the file as texts and lines have it, or none"""
        return None if self.file is None else written(self.file)

    def line(self, method, place):
        """the line of a place of a method by its number in the class file, or none"""
        found = None
        for start, line in self.tables[method]:
            if start <= place and (found is None or start >= found[0]):
                found = start, line
        return found[1] if found else None


class Sources:
    """the files and lines of a program's instructions; those of the core classes tell nothing"""

    def __init__(self, program, files):
        self.program, self.sources = program, [Source(data) for data in files]

    def of(self, m):
        """what is known of the source of a method's class, or none"""
        number = self.program.coded[m][0] - self.program.first_own
        return self.sources[number] if 0 <= number < len(self.sources) else None

    def at(self, m, place):
        """the file and the line of an instruction, or none"""
        source = self.of(m)
        file = source.file_written() if source else None
        line = source.line(self.program.coded[m][1], place) if file is not None else None
        return None if line is None else (file, line)

    def files(self):
        return {source.file_written() for source in self.sources} - {None}


# What a name doesn't show as it stands: a # in front, and bytes below 33, 92 and 127 anywhere.
HIDDEN = re.compile(rb'\A#|[\0-\40\\\177]')


def written(name):
    """a name of bytes as texts and lines have it"""
    return HIDDEN.sub(lambda found: b'\\x%02X' % found[0][0], name).decode('utf-8', 'surrogateescape')


def starts_of(data):
    """the starts of a table, none where the bytes aren't one"""
    left = Bytes(data)
    count = left.number(2)
    if len(data) < 2 or len(data) != 2 + 4 * count:
        return []
    return [(left.number(2), left.number(2)) for _ in range(count)]
