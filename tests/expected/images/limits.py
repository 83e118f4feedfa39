"""Rows at the limits of an image: one below, one at and one past each. rows.py writes those of WRITTEN; the rows of methods are too large for a table."""
import sys
import expected_image
from classfile import ClassFile, main_class, signatures

LIMITS = {'Types': 2048, 'InterfaceMethods': 512, 'Methods': 65535, 'Words': 1048576}
WRITTEN = ['types', 'interface_methods', 'words']


class Image(expected_image.Image):
    """the same image, with the supertypes of types found from those of their components"""

    def count(self):
        super().count()
        self.array_of = {self.type_number[t[1]]: i for i, t in enumerate(self.types) if t[0] == 'r'}
        self.above = []
        roots = {8, 9, 10}
        for t in self.types:
            if t[0] == 'c':
                self.above.append({8 + k for k in self.supers(t[1])} | {8})
            elif t[0] == 'n':
                self.above.append({self.type_number[t]} | roots)
            else:
                self.above.append({self.array_of[k] for k in self.above[self.type_number[t[1]]] if k in self.array_of} | roots)

    def is_of(self, s, t):
        raise NotImplementedError

    def type_words(self, i):
        known, self.types = self.types, self.types[:i + 1]
        self.is_of = lambda s, t: False
        words = super().type_words(i)[:5]
        self.types = known
        bits = [0] * ((len(self.types) + 31) // 32)
        for u in self.above[i]:
            bits[u // 32] |= 1 << u % 32
        return words + bits


def image_of(files):
    classes = expected_image.core_classes() + [expected_image.read_class(f) for f in files]
    by_name = {c.name: c for c in classes}
    image = Image(classes + [expected_image.boot_class(classes, by_name, b'Main')])
    image.lay()
    return image


def counts(image):
    return {'Types': len(image.types), 'InterfaceMethods': len(image.interface_methods), 'Methods': len(image.coded), 'Words': image.total}


def answer(files):
    image = image_of(files)
    for what, count in counts(image).items():
        if count > LIMITS[what]:
            return 'Main: link: too large %s count=%d limit=%d' % (what, count, LIMITS[what])
    total = 0
    words = 0
    for _, region in image.regions():
        for w in region:
            total = (total * 31 + expected_image.word(w)) & 0xFFFFFFFF
            words += 1
    assert words == image.total
    return 'Main: %d words, sum %08x' % (words, total)


# types: arrays of many dimensions, each of which mentions those within it
def of_types(many):
    bases = ['Main', 'java/lang/Object', 'java/lang/String', 'java/lang/Throwable', 'java/io/Serializable', 'java/lang/Cloneable', 'java/lang/Exception', 'java/lang/Error']

    def code(k):
        out, rest = b'\x01', many - 8 - 25
        for base in bases:
            n = min(255, rest)
            rest -= n
            if n:
                out += b'\xc0' + k.cls('[' * n + 'L' + base + ';').to_bytes(2, 'big')
        assert rest == 0
        return out + b'\x57'
    return [main_class(code)]


def of_interface_methods(many):
    k = ClassFile(0x601, 'Wide')
    for n, d in signatures(many):
        k.method(0x401, n, d)
    return [k.data(), main_class()]


# methods with code, those of the core classes and of Main and boot among them
def of_methods(many, others):
    k = ClassFile(0x21, 'Many')
    for n, d in signatures(many - others):
        k.method(9, n, d, b'\xb1', 0, 20)
    return [k.data(), main_class()]


# words: classes with the slots of one class above, and a string
def of_words(many, slots=3000, classes=340):
    k = ClassFile(0x421, 'Base')
    for n, d in signatures(slots):
        k.method(0x401, n, d)
    files = [k.data()]

    def padded(text):
        return main_class(lambda m: b'\x13' + m.string(text).to_bytes(2, 'big') + b'\x57')

    def below(n):
        return files + [ClassFile(0x421, 'C%03d' % i, 'Base').data() for i in range(n)]
    least, most = 0, classes
    while most - least > 1:
        n = (least + most) // 2
        if image_of(below(n) + [padded('x')]).total > many:
            most = n
        else:
            least = n
    rest = many - image_of(below(least) + [padded('x')]).total + 1
    return below(least) + [padded('x' * rest)]


def rows(word):
    if word == 'types':
        return [of_types(n) for n in (2047, 2048, 2049)]
    if word == 'interface_methods':
        return [of_interface_methods(n) for n in (511, 512, 513)]
    if word == 'methods':
        others = len(image_of([ClassFile(0x21, 'Many').data(), main_class()]).coded)
        return [of_methods(n, others) for n in (65534, 65535, 65536)]
    return [of_words(n) for n in (1048575, 1048576, 1048577)]


def write(given, wanted):
    sys.setrecursionlimit(10000)
    for word in WRITTEN:
        for files in rows(word):
            given.write(' '.join(['sum', 'Main'] + [f.hex() for f in files]) + '\n')
            wanted.write(answer(files) + '\n')
