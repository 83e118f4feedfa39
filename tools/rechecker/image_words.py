"""The words of a linked image from class files (docs/formats.md, "Words of a linked image"). Not proved: a tool."""
from .class_files import class_name, instructions, parameters, read_class, width
from .core_classes import boot_class, core_classes
from .hierarchy import PRIVATE, STATIC, Hierarchy

INTEGER, LONG, CLASS, STRING, FIELD_REF, METHOD_REF, INTERFACE_METHOD_REF = 3, 5, 7, 8, 9, 10, 11
LDC, LDC_W, LDC2_W = 18, 19, 20
INVOKEVIRTUAL, INVOKESPECIAL, INVOKESTATIC, INVOKEINTERFACE = 182, 183, 184, 185
NEW, ANEWARRAY, CHECKCAST, INSTANCEOF = 187, 189, 192, 193
# The tags of the entries of a pool that instructions may name.
RIGHT = {
    LDC: (INTEGER, STRING), LDC_W: (INTEGER, STRING), LDC2_W: (LONG,), **{op: (FIELD_REF,) for op in range(178, 182)},
    INVOKEVIRTUAL: (METHOD_REF,), INVOKEINTERFACE: (INTERFACE_METHOD_REF,),
    **{op: (CLASS,) for op in (NEW, ANEWARRAY, CHECKCAST, INSTANCEOF)},
}
# The array type codes of the arrays of numbers.
NUMBERS = {b'Z': 4, b'C': 5, b'F': 6, b'D': 7, b'B': 8, b'S': 9, b'I': 10, b'J': 11}
# What instructions raise, in the order of the image's list.
RAISED = [
    b'ArithmeticException', b'ArrayIndexOutOfBoundsException', b'ArrayStoreException', b'ClassCastException',
    b'IncompatibleClassChangeError', b'NegativeArraySizeException', b'NullPointerException', b'OutOfMemoryError',
    b'StackOverflowError',
]
# Where regions begin, and the first type of a class.
LISTS, RAISE_LIST, STATICS, FIRST_CLASS = 16, 24, 33, 8
CHARS, STRING_CLASS = 1, 3


def right_tags(op, major):
    """the tags of the entries that an instruction may name in a class file of a major version"""
    if op in (INVOKESPECIAL, INVOKESTATIC):
        return (METHOD_REF, INTERFACE_METHOD_REF) if major >= 52 else (METHOD_REF,)
    return RIGHT[op]


def word(number):
    """a number that has to fit a word"""
    assert 0 <= number < 1 << 32
    return number


def halves(number):
    """the two words of a long"""
    return [number >> 32, number & 0xffffffff]


class Image(Hierarchy):
    """the image of a program's classes, region by region

    A type is ('n', code) for an array of numbers, ('c', class) for a class and ('r', type) for an array of references.
    """

    def __init__(self, classes):
        super().__init__(classes)
        self.count()

    # ---- numbers

    def count(self):
        """numbers the types, the strings, the static fields and the methods of interfaces"""
        every = [(c, i) for c, each in enumerate(self.classes) for i in range(len(each.methods))]
        self.interface_methods = [method for method in every if self.is_interface(method[0])]
        fields = [(c, i, field) for c, each in enumerate(self.classes) for i, field in enumerate(each.fields)]
        self.statics = [(c, i) for c, i, field in fields if field['flags'] & STATIC]
        self.types = [*(('n', code) for code in range(4, 12)), *(('c', c) for c in range(len(self.classes)))]
        self.type_number = {each: n for n, each in enumerate(self.types)}
        self.strings = {}
        for each in self.classes:
            for field in each.fields:
                if 'constant' in field and each.pool[field['constant']][0] == STRING:
                    self.mention_string(self.string_at(each, field['constant']))
            for op, index in self.namings(each):
                if each.pool[index][0] == STRING:
                    self.mention_string(self.string_at(each, index))
                if op in (ANEWARRAY, CHECKCAST, INSTANCEOF):
                    named = self.type_of(class_name(each, index))
                    self.mention(('r', named) if op == ANEWARRAY else named)

    def string_at(self, each, index):
        """the text of an entry for a string"""
        return each.pool[each.pool[index][1]][1]

    def mention_string(self, utf8):
        self.strings.setdefault(utf8, len(self.strings))

    def mention(self, named):
        """numbers a type of arrays of references behind that of its component"""
        if named[0] == 'r':
            self.mention(named[1])
            if named not in self.type_number:
                self.type_number[named] = len(self.types)
                self.types.append(named)

    def type_of(self, name):
        """the type of a class's name or an array's descriptor"""
        if not name.startswith(b'['):
            return ('c', self.number[name])
        dimensions = name.count(b'[')
        base = name[dimensions:]
        if base.startswith(b'L'):
            found = ('c', self.number[base[1:-1]])
        else:
            found, dimensions = ('n', NUMBERS[base]), dimensions - 1
        for _ in range(dimensions):
            found = ('r', found)
        return found

    def is_of(self, one, other):
        """whether the other type is the one or a supertype of it"""
        if one == other or other == ('c', 0):
            return True
        if one[0] == 'c':
            return other[0] == 'c' and other[1] in self.supers(one[1])
        if other in (('c', 1), ('c', 2)):
            return True
        return one[0] == 'r' and other[0] == 'r' and self.is_of(one[1], other[1])

    def namings(self, each):
        """the opcodes of a class's instructions that name an entry of its pool, with its index"""
        for method in each.methods:
            for _, op, index in instructions(method['code']['code']) if 'code' in method else ():
                if index is not None and index < len(each.pool) and each.pool[index]:
                    if each.pool[index][0] in right_tags(op, each.major):
                        yield op, index

    # ---- fields and slots

    def instance_fields(self, c):
        """the instance fields of a class, those of its superclasses first"""
        above = ((k, self.classes[k].fields) for k in reversed(self.chain(c)))
        return [(k, i) for k, fields in above for i, field in enumerate(fields) if not field['flags'] & STATIC]

    def field_width(self, field):
        return width(self.classes[field[0]].fields[field[1]]['descriptor'])

    def object_words(self, c):
        """the words of an instance"""
        return 1 + sum(self.field_width(field) for field in self.instance_fields(c))

    def slots(self, c):
        """the methods for which a class has slots: its superclass's, its own, and those of its superinterfaces"""
        if self.is_interface(c):
            return []
        found = list(self.slots(self.superclass(c))) if self.superclass(c) is not None else []
        for i, method in enumerate(self.classes[c].methods):
            if not method['flags'] & (PRIVATE | STATIC) and method['name'] != b'<init>':
                found.append((c, i))
        have = {self.signature(method) for method in found}
        above = self.supers(c)
        for method in self.interface_methods:
            if method[0] in above and self.signature(method) not in have:
                found.append(method)
                have.add(self.signature(method))
        return found

    def argument_words(self, method):
        own = 0 if self.method(method)['flags'] & STATIC else 1
        return own + sum(width(each) for each in parameters(self.method(method)['descriptor']))

    # ---- places

    def lay(self):
        """gives each part of the image its place"""
        self.place = {'statics': STATICS}
        self.static_place, at = {}, STATICS
        for field in self.statics:
            self.static_place[field] = at
            at += self.field_width(field)
        self.place['types'] = at
        self.type_place = [at + i * self.words_of_type() for i in range(len(self.types))]
        at = self.lay_tables(at + len(self.types) * self.words_of_type())
        at = self.lay_pools_and_methods(at)
        self.total = self.lay_objects(at)

    def words_of_type(self):
        return 5 + (len(self.types) + 31) // 32

    def lay_tables(self, at):
        """the tables of methods, then those of interfaces, of which the first is of zeros"""
        self.place['tables'] = at
        self.table = [self.slots(c) for c in range(len(self.classes))]
        self.table_place = []
        for each in self.table:
            self.table_place.append(at)
            at += len(each)
        self.place['interfaces'] = at
        self.interface_place = []
        at += len(self.interface_methods)
        for c in range(len(self.classes)):
            self.interface_place.append(self.place['interfaces'] if self.is_interface(c) else at)
            at += 0 if self.is_interface(c) else len(self.interface_methods)
        return at

    def lay_pools_and_methods(self, at):
        self.place['pools'] = at
        self.pool_place = []
        for each in self.classes:
            self.pool_place.append(at)
            at += 2 * len(each.pool)
        self.place['methods'] = at
        self.method_place = {}
        for method in self.coded:
            self.method_place[method] = at
            body = self.method(method)['code']
            at += 4 + 3 * len(body['handlers']) + (len(body['code']) + 3) // 4
        return at

    def lay_objects(self, at):
        """the objects that are raised, and the strings"""
        self.place['raised'] = at
        self.raised = [self.number[b'java/lang/' + name] for name in RAISED]
        self.raised_place = []
        for c in self.raised:
            self.raised_place.append(at)
            at += self.object_words(c)
        self.place['strings'] = at
        self.string_place = []
        for text in self.strings:
            at += 2 + len(units(text))
            self.string_place.append(at)
            at += 2
        return at

    def class_type(self, c):
        return self.type_place[FIRST_CLASS + c]

    # ---- words

    def regions(self):
        """the names of the regions, with their words"""
        self.lay()
        boot, count = (len(self.classes) - 1, 0), range(len(self.classes))
        sizes = [self.method_place[boot], self.pool_place[-1], len(self.types), RAISE_LIST, LISTS, self.total]
        yield 'header', [0, *sizes] + [0] * 9
        yield 'lists', self.type_place[:FIRST_CLASS] + self.raised_place
        yield 'statics', [each for field in self.statics for each in self.first_words(field)]
        yield 'types', [each for i in range(len(self.types)) for each in self.type_words(i)]
        yield 'tables', [self.code_place(self.select(c, slot)) for c in count for slot in self.table[c]]
        classes = [c for c in count if not self.is_interface(c)]
        yield 'interfaces', [0] * len(self.interface_methods) + [each for c in classes for each in self.interface_words(c)]
        yield 'pools', [each for c in count for each in self.pool_words(c)]
        yield 'methods', [each for method in self.coded for each in self.method_words(method)]
        yield 'raised', [each for c in self.raised for each in [self.class_type(c)] + [0] * (self.object_words(c) - 1)]
        yield 'strings', [each for i, text in enumerate(self.strings) for each in self.string_words(i, units(text))]

    def interface_words(self, c):
        """the place of what is selected in a class for each method of an interface that it implements"""
        above = self.supers(c)
        for method in self.interface_methods:
            yield self.code_place(self.select(c, method)) if method[0] in above else 0

    def string_words(self, i, text):
        """the array of char, then the object"""
        return [self.type_place[CHARS], len(text), *text, self.class_type(STRING_CLASS), self.string_place[i] - 2 - len(text)]

    def first_words(self, field):
        """the first value of a static field"""
        each = self.classes[field[0]]
        found = each.fields[field[1]]
        if 'constant' not in found:
            return [0] * width(found['descriptor'])
        tag, value = each.pool[found['constant']]
        if tag == LONG:
            return halves(value)
        return [self.string_place[self.strings[each.pool[value][1]]] if tag == STRING else value]

    def type_words(self, i):
        """number, words of an instance, component, tables, and which types are this one or above it"""
        kind, of = found = self.types[i]
        is_interface = kind == 'c' and self.is_interface(of)
        instance = self.object_words(of) if kind == 'c' and not is_interface else 0
        component = self.type_number[of] + 1 if kind == 'r' else 0
        tables = [self.table_place[0], self.place['interfaces']]
        if kind == 'c':
            tables = [0 if is_interface else self.table_place[of], self.interface_place[of]]
        bits = [0] * ((len(self.types) + 31) // 32)
        for n, other in enumerate(self.types):
            if self.is_of(found, other):
                bits[n // 32] |= 1 << n % 32
        return [i, instance, component] + tables + bits

    def code_place(self, method):
        """the place of a method with code, 0 for another one"""
        return self.method_place.get(method, 0)

    def pool_words(self, c):
        each, named, found = self.classes[c], {}, []
        for op, index in self.namings(each):
            named.setdefault(index, []).append(op)
        for index in range(len(each.pool)):
            found += self.entry_words(c, index, named[index]) if index in named else [0, 0]
        return found

    def entry_words(self, c, index, opcodes):
        """the two words of an entry that instructions of these opcodes name"""
        each = self.classes[c]
        tag, *values = each.pool[index]
        if tag == INTEGER:
            return [values[0], 0]
        if tag == LONG:
            return halves(values[0])
        if tag == STRING:
            return [self.string_place[self.strings[self.string_at(each, index)]], 0]
        if tag == CLASS:
            named = self.type_of(class_name(each, index))
            return [self.type_place[self.type_number[x]] if x in self.type_number else 0 for x in (named, ('r', named))]
        owner, pair = self.number[class_name(each, values[0])], each.pool[values[1]]
        signature = each.pool[pair[1]][1], each.pool[pair[2]][1]
        if tag == FIELD_REF:
            return self.field_words(self.find_field(owner, signature))
        return self.method_ref_words(c, tag, owner, signature, opcodes)

    def field_words(self, field):
        """the place of a static field, or the word of an instance field in an object; and whether it is long"""
        if self.classes[field[0]].fields[field[1]]['flags'] & STATIC:
            return [self.static_place[field], self.field_width(field) - 1]
        fields = self.instance_fields(field[0])
        before = fields[:fields.index(field)]
        return [1 + sum(map(self.field_width, before)), self.field_width(field) - 1]

    def method_ref_words(self, c, tag, owner, signature, opcodes):
        """the place of the method that invokespecial or invokestatic takes; and words of arguments, with a slot or a number"""
        method = self.find_method(owner, signature)
        arguments, first = self.argument_words(method) << 24, 0
        if INVOKESTATIC in opcodes:
            first = self.method_place[method]
        if INVOKESPECIAL in opcodes:
            first = self.method_place[self.special(c, owner, signature)]
        if tag == INTERFACE_METHOD_REF:
            return [first, arguments + self.interface_methods.index(method)]
        return [first, arguments + self.slot_of(owner, method)]

    def slot_of(self, owner, method):
        """the slot of a method in the table of a class, 0 where it has none"""
        table = self.table[owner]
        if self.is_interface(method[0]):
            return next((slot for slot, each in enumerate(table) if self.signature(each) == self.signature(method)), 0)
        return table.index(method) if method in table else 0

    def method_words(self, method):
        body, c = self.method(method)['code'], method[0]
        code = body['code'] + bytes(-len(body['code']) % 4)
        sizes = [body['locals'] << 16 | body['stack'], self.argument_words(method) << 16 | len(code) // 4]
        found = [*sizes, self.pool_place[c], len(body['handlers'])]
        for start, end, handler, caught in body['handlers']:
            number = self.type_number[self.type_of(class_name(self.classes[c], caught))] + 1 if caught else 0
            found += [start << 16 | end, handler, number]
        return found + [int.from_bytes(code[i:i + 4], 'big') for i in range(0, len(code), 4)]


def units(utf8):
    """the 16-bit units of modified UTF-8 (4.4.7)"""
    found, at = [], 0
    while at < len(utf8):
        byte = utf8[at]
        size = 1 if byte < 0x80 else 2 if byte < 0xE0 else 3
        unit = byte if size == 1 else byte & (0x1f if size == 2 else 0xf)
        for more in utf8[at + 1:at + size]:
            unit = unit << 6 | more & 0x3f
        found.append(unit)
        at += size
    return found


def link(main, files):
    """the image of class files"""
    own = [read_class(data) for data in files]
    classes = core_classes() + own
    return Image(classes + [boot_class(classes, {each.name: each for each in classes}, main)])
