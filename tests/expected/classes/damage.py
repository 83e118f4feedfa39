"""Writes tests/tables/classes: classes that javac compiled, and the same with one thing changed.

    javac --release 8 -d OUT *.java
    python3 damage.py OUT

What is a class file follows from the section of the JVM Specification (SE 8) that the title names, and stands below in WANTED by hand.
"""
import copy, struct, sys, os

sys.path.append(os.path.join(os.path.dirname(os.path.abspath(__file__)), '..'))
import class_writer as writer
from class_writer import u2

class Reader:
    def __init__(self, b): self.b, self.i = b, 0
    def take(self, n): self.i += n; return self.b[self.i - n:self.i]
    def u1(self): return self.take(1)[0]
    def u2(self): return struct.unpack('>H', self.take(2))[0]
    def u4(self): return struct.unpack('>I', self.take(4))[0]

SIZES = {3: 4, 4: 4, 5: 8, 6: 8, 7: 2, 8: 2, 9: 4, 10: 4, 11: 4, 12: 4, 15: 3, 16: 2, 18: 4}

class Class:
    """A class file in parts: pool entries as [tag, bytes] (None for a second place), members as dicts."""
    def __init__(self, data):
        r = Reader(data); assert r.u4() == 0xCAFEBABE
        self.minor, self.major = r.u2(), r.u2()
        n = r.u2(); self.pool = [None]; self.count_off = 0
        while len(self.pool) < n:
            tag = r.u1()
            self.pool.append([tag, r.take(r.u2()) if tag == 1 else r.take(SIZES[tag])])
            if tag in (5, 6): self.pool.append(None)
        self.flags, self.this, self.super = r.u2(), r.u2(), r.u2()
        self.interfaces = [r.u2() for _ in range(r.u2())]
        self.fields, self.methods = self.members(r), self.members(r)
        self.attributes = self.attrs(r)
        self.tail = r.b[r.i:]; assert not self.tail
    def attrs(self, r): return [[r.u2(), r.take(r.u4())] for _ in range(r.u2())]
    def members(self, r):
        return [dict(flags=r.u2(), name=r.u2(), descriptor=r.u2(), attributes=self.attrs(r)) for _ in range(r.u2())]
    def bytes(self):
        entries = [bytes([e[0]]) + (u2(len(e[1])) if e[0] == 1 else b'') + e[1] for e in self.pool if e]
        members = [[writer.member(m['flags'], m['name'], m['descriptor'], put_attrs(m['attributes'])) for m in ms] for ms in (self.fields, self.methods)]
        return writer.class_file(u2(len(self.pool)) + b''.join(entries), self.flags, self.this, self.super, self.interfaces, *members, put_attrs(self.attributes),
                                 (self.minor, self.major)) + self.tail
    def add(self, tag, data):
        self.pool.append([tag, data])
        if tag in (5, 6): self.pool.append(None); return len(self.pool) - 2
        return len(self.pool) - 1
    def text(self, s): return self.add(1, s.encode() if isinstance(s, str) else s)
    def named(self, name, descriptor): return self.add(12, u2(self.text(name)) + u2(self.text(descriptor)))
    def klass(self, name): return self.add(7, u2(self.text(name)))
    def of(self, i): return self.pool[i][1].decode()
    def member(self, kind, name): return next(m for m in getattr(self, kind) if self.of(m['name']) == name)
    def field(self, name): return self.member('fields', name)
    def method(self, name): return self.member('methods', name)
    def attribute(self, m, name): return next(a for a in m['attributes'] if self.of(a[0]) == name)

def put_attrs(attrs): return [writer.attribute(n, b) for n, b in attrs]

class CodeParts:
    def __init__(self, data):
        r = Reader(data); self.stack, self.locals = r.u2(), r.u2()
        self.code = r.take(r.u4()); self.handlers = [[r.u2() for _ in range(4)] for _ in range(r.u2())]
        self.attributes = [[r.u2(), r.take(r.u4())] for _ in range(r.u2())]
    def bytes(self):
        return writer.code(self.stack, self.locals, self.code, self.handlers, put_attrs(self.attributes))

rows = []
def row(title, base, change=lambda c: None):
    c = copy.deepcopy(base); change(c); rows.append((title, c.bytes().hex()))

def code_of(name, edit):
    def change(c):
        a = c.attribute(c.method(name), 'Code'); k = CodeParts(a[1]); edit(c, k); a[1] = k.bytes()
    return change

def sets(**kw):
    def change(c):
        for k, v in kw.items(): setattr(c, k, v(c) if callable(v) else v)
    return change

def member(kind, which, /, **kw):
    def change(c):
        m = c.member(kind, which)
        for k, v in kw.items(): m[k] = v(c) if callable(v) else v
    return change

def more(kind, name, attribute, body):
    def change(c):
        c.member(kind, name)['attributes'].append([c.text(attribute), body(c) if callable(body) else body])
    return change

def constant(name, entry):
    def change(c): c.attribute(c.field(name), 'ConstantValue')[1] = u2(entry(c))
    return change

def twice(kind, which, /, **kw):
    def change(c):
        m = copy.deepcopy(c.member(kind, which))
        for k, v in kw.items(): m[k] = v(c)
        getattr(c, kind).append(m)
    return change

def main(out):
    load = lambda name: Class(open(os.path.join(out, name + '.class'), 'rb').read())
    stage, gain, pick, inner, shape = (load(n) for n in ('Stage', 'Gain', 'Pick', 'Pick$Inner', 'Shape'))
    for name, c in (('Stage', stage), ('Gain', gain), ('Pick', pick), ('Pick$Inner', inner), ('Shape', shape)):
        row('javac_' + name, c)
    adds = lambda f: (lambda c: f(c) and None)
    owner = lambda c: u2(c.this)
    # the header and the structure
    for v in (49, 50, 51, 53): row('version_%d_4.1' % v, shape, sets(major=v))
    row('another_magic_number_4.1', shape); rows[-1] = (rows[-1][0], 'cafebabf' + rows[-1][1][8:])
    row('a_byte_behind_the_end_4.1', shape, sets(tail=b'\0'))
    row('a_byte_less_4.1', shape); rows[-1] = (rows[-1][0], rows[-1][1][:-2])
    row('an_undefined_flag_4.1', shape, sets(flags=lambda c: c.flags | 0x0040))
    row('a_second_place_of_a_long_4.4.5', shape, adds(lambda c: c.add(5, bytes(8))))
    row('an_unknown_tag_4.4', shape, adds(lambda c: c.pool.append([2, b'']) or True))
    # the pool
    row('class_named_as_an_array_type_4.4.1', shape, adds(lambda c: c.klass('[[I')))
    row('class_named_with_an_empty_part_4.4.1', shape, adds(lambda c: c.klass('a//b')))
    row('class_named_with_dots_4.4.1', shape, adds(lambda c: c.klass('a.b')))
    row('class_that_names_a_class_4.4.1', shape, adds(lambda c: c.add(7, u2(c.this))))
    for tag, kind, good, bad in ((9, 'field', 'I', '()I'), (10, 'method', '()I', 'I'), (11, 'interface_method', '()I', 'I')):
        row(kind + '_of_its_descriptor_4.4.2', shape, adds(lambda c: c.add(tag, owner(c) + u2(c.named('x', good)))))
        row(kind + '_of_another_descriptor_4.4.2', shape, adds(lambda c: c.add(tag, owner(c) + u2(c.named('x', bad)))))
    row('field_of_no_class_4.4.2', shape, adds(lambda c: c.add(9, u2(c.text('x')) + u2(c.named('x', 'I')))))
    row('string_of_a_text_4.4.3', shape, adds(lambda c: c.add(8, u2(c.text('x')))))
    row('string_of_a_class_4.4.3', shape, adds(lambda c: c.add(8, u2(c.this))))
    row('name_and_type_of_an_initializer_4.4.6', shape, adds(lambda c: c.named('<init>', '()V')))
    row('name_and_type_of_a_field_with_angles_4.4.6', shape, adds(lambda c: c.named('<x>', 'I')))
    row('name_and_type_of_a_method_with_angles_4.4.6', shape, adds(lambda c: c.named('<x>', '()I')))
    row('name_and_type_of_a_field_with_a_slash_4.4.6', shape, adds(lambda c: c.named('a/b', 'I')))
    row('name_and_type_of_no_descriptor_4.4.6', shape, adds(lambda c: c.named('x', 'Q')))
    handle = lambda kind, entry: adds(lambda c: c.add(15, bytes([kind]) + u2(entry(c))))
    a_field = lambda c: c.add(9, owner(c) + u2(c.named('x', 'I')))
    a_method = lambda c: c.add(10, owner(c) + u2(c.named('x', '()I')))
    an_interface_method = lambda c: c.add(11, owner(c) + u2(c.named('x', '()I')))
    for kind, entry, word in ((1, a_field, 'field'), (4, a_method, 'method'), (5, a_method, 'method'), (5, an_interface_method, 'interface_method'), (7, an_interface_method, 'interface_method'), (9, an_interface_method, 'interface_method'), (9, a_method, 'method'), (0, a_field, 'field'), (10, a_method, 'method')):
        row('handle_of_kind_%d_of_a_%s_4.4.8' % (kind, word), shape, handle(kind, entry))
    row('method_type_of_a_method_4.4.9', shape, adds(lambda c: c.add(16, u2(c.text('(I)V')))))
    row('method_type_of_a_field_4.4.9', shape, adds(lambda c: c.add(16, u2(c.text('I')))))
    row('dynamic_of_a_method_4.4.10', shape, adds(lambda c: c.add(18, u2(0) + u2(c.named('x', '()I')))))
    row('dynamic_of_a_field_4.4.10', shape, adds(lambda c: c.add(18, u2(0) + u2(c.named('x', 'I')))))
    # the class
    row('this_class_is_an_array_4.1', shape, sets(this=lambda c: c.klass('[I')))
    row('this_class_is_a_text_4.1', shape, sets(this=lambda c: c.text('A')))
    row('no_superclass_4.1', shape, sets(super=0))
    row('superclass_is_an_array_4.1', shape, sets(super=lambda c: c.klass('[I')))
    row('interface_is_an_array_4.1', shape, sets(interfaces=lambda c: c.interfaces + [c.klass('[I')]))
    row('interface_that_is_not_abstract_4.1', stage, sets(flags=0x0200))
    row('interface_that_is_abstract_4.1', stage, sets(flags=0x0600))
    row('class_attribute_without_a_name_4.7', shape, sets(attributes=[[0, b'']]))
    # fields
    f = lambda which, /, **kw: member('fields', which, **kw)
    row('field_name_with_angles_4.2.2', shape, f('sum', name=lambda c: c.text('<x>')))
    row('field_name_with_a_dot_4.2.2', shape, f('sum', name=lambda c: c.text('a.b')))
    row('field_name_that_is_a_class_4.5', shape, f('sum', name=lambda c: c.this))
    row('field_of_a_method_descriptor_4.5', shape, f('sum', descriptor=lambda c: c.text('()V')))
    row('field_of_255_dimensions_4.3.2', shape, f('sum', descriptor=lambda c: c.text('[' * 255 + 'I')))
    row('field_of_256_dimensions_4.3.2', shape, f('sum', descriptor=lambda c: c.text('[' * 256 + 'I')))
    for flags, word in ((1, 'public'), (2, 'private'), (4, 'protected')): row('%s_field_4.5' % word, shape, f('sum', flags=flags))
    for flags, word in ((3, 'public_and_private'), (5, 'public_and_protected'), (6, 'private_and_protected')): row('%s_field_4.5' % word, shape, f('sum', flags=flags))
    for flags, word in ((0x18, 'public'), (0x11, 'static'), (9, 'final')): row('interface_field_not_%s_4.5' % word, stage, f('LIMIT', flags=flags))
    row('field_attribute_without_a_name_4.7', shape, f('sum', attributes=[[0, b'']]))
    row('two_constants_4.7.2', shape, more('fields', 'LIMIT', 'ConstantValue', lambda c: c.attribute(c.field('LIMIT'), 'ConstantValue')[1]))
    row('constant_of_three_bytes_4.7.2', shape, more('fields', 'sum', 'ConstantValue', b'\0\1\0'))
    row('int_of_a_long_constant_4.7.2', shape, constant('LIMIT', lambda c: c.add(5, bytes(8))))
    row('int_of_another_int_4.7.2', shape, constant('LIMIT', lambda c: c.add(3, bytes(4))))
    row('int_of_a_float_4.7.2', shape, constant('LIMIT', lambda c: c.add(4, bytes(4))))
    row('int_of_a_string_4.7.2', shape, constant('LIMIT', lambda c: c.add(8, u2(c.text('x')))))
    row('string_of_an_int_4.7.2', shape, constant('NAME', lambda c: c.add(3, bytes(4))))
    row('string_of_another_string_4.7.2', shape, constant('NAME', lambda c: c.add(8, u2(c.text('x')))))
    row('string_constant_of_an_object_4.7.2', shape, f('NAME', descriptor=lambda c: c.text('Ljava/lang/Object;')))
    row('string_constant_of_an_array_4.7.2', shape, f('NAME', descriptor=lambda c: c.text('[Ljava/lang/String;')))
    for letter, tag, size in (('B', 3, 4), ('C', 3, 4), ('S', 3, 4), ('Z', 3, 4), ('J', 5, 8), ('F', 4, 4), ('D', 6, 8)):
        def typed(c, letter=letter, tag=tag, size=size):
            f('LIMIT', descriptor=lambda c: c.text(letter))(c); constant('LIMIT', lambda c: c.add(tag, bytes(size)))(c)
        row('constant_of_a_field_%s_4.7.2' % letter, shape, typed)
    row('constant_of_a_field_J_that_is_an_int_4.7.2', shape, f('LIMIT', descriptor=lambda c: c.text('J')))
    row('constant_of_an_instance_field_of_another_type_4.7.2', shape, constant('weight', lambda c: c.add(6, bytes(8))))
    row('constant_of_an_instance_field_that_is_a_class_4.7.2', shape, constant('weight', lambda c: c.this))
    row('constant_past_the_pool_4.7.2', shape, constant('weight', lambda c: 9999))
    row('code_on_a_field_4.7.3', shape, more('fields', 'sum', 'Code', b'\1\2\3'))
    row('two_fields_alike_4.5', shape, twice('fields', 'sum'))
    row('two_fields_alike_by_other_entries_4.5', shape, twice('fields', 'sum', name=lambda c: c.text('sum'), descriptor=lambda c: c.text('J')))
    row('two_fields_of_one_name_4.5', shape, twice('fields', 'sum', descriptor=lambda c: c.text('I')))
    row('two_fields_of_one_type_4.5', shape, twice('fields', 'sum', name=lambda c: c.text('total')))
    # methods
    m = lambda which, /, **kw: member('methods', which, **kw)
    row('method_name_with_angles_4.2.2', shape, m('area', name=lambda c: c.text('<x>')))
    row('method_name_with_a_bracket_4.2.2', shape, m('area', name=lambda c: c.text('a[')))
    row('method_name_with_a_parenthesis', shape, m('area', name=lambda c: c.text('a(')))
    row('method_of_a_field_descriptor_4.6', shape, m('area', descriptor=lambda c: c.text('I')))
    words = lambda n: (lambda c: c.text('(' + 'I' * n + ')I'))
    row('method_of_254_words_and_this_4.3.3', shape, m('area', descriptor=words(254)))
    row('method_of_255_words_and_this_4.3.3', shape, m('area', descriptor=words(255)))
    row('static_method_of_255_words_4.3.3', shape, m('pick', descriptor=words(255)))
    row('static_method_of_256_words_4.3.3', shape, m('pick', descriptor=words(256)))
    row('static_method_of_127_longs_and_an_int_4.3.3', shape, m('pick', descriptor=lambda c: c.text('(' + 'J' * 127 + 'I)I')))
    row('static_method_of_128_longs_4.3.3', shape, m('pick', descriptor=lambda c: c.text('(' + 'J' * 128 + ')I')))
    row('static_method_of_255_arrays_of_longs_4.3.3', shape, m('pick', descriptor=lambda c: c.text('(' + '[J' * 255 + ')I')))
    for flags, word in ((3, 'public_and_private'), (5, 'public_and_protected'), (6, 'private_and_protected')): row('%s_method_4.6' % word, shape, m('run', flags=flags))
    for flags, word in ((2, 'private'), (8, 'static'), (0x10, 'final'), (0x20, 'synchronized'), (0x100, 'native'), (0x800, 'strict')): row('abstract_and_%s_method_4.6' % word, shape, m('area', flags=0x400 | flags))
    for flags, word in ((1, 'public'), (4, 'protected'), (0x80, 'varargs')): row('abstract_and_%s_method_4.6' % word, shape, m('area', flags=0x400 | flags))
    row('initializer_of_an_interface_2.9', stage, m('step', name=lambda c: c.text('<init>'), descriptor=lambda c: c.text('()V')))
    row('class_initializer_of_an_interface_2.9', stage, m('twice', name=lambda c: c.text('<clinit>'), descriptor=lambda c: c.text('()V')))
    row('static_initializer_4.6', shape, m('<init>', flags=8))
    row('private_initializer_4.6', shape, m('<init>', flags=2))
    row('initializer_that_returns_an_int_2.9', shape, m('<init>', descriptor=lambda c: c.text('()I')))
    row('method_attribute_without_a_name_4.7', shape, m('area', attributes=[[0, b'']]))
    row('method_without_code_4.7.3', shape, m('run', attributes=[]))
    row('native_method_without_code_4.7.3', shape, m('run', attributes=[], flags=0x101))
    row('abstract_method_with_code_4.7.3', shape, m('run', flags=0x401))
    row('native_method_with_code_4.7.3', shape, m('run', flags=0x101))
    row('two_codes_4.7.3', shape, more('methods', 'run', 'Code', lambda c: c.attribute(c.method('run'), 'Code')[1]))
    row('constant_on_a_method_4.7.2', shape, more('methods', 'run', 'ConstantValue', b'\1\2\3'))
    row('code_of_no_bytes_4.7.3', shape, code_of('run', lambda c, k: setattr(k, 'code', b'')))
    row('code_of_one_byte_4.7.3', shape, code_of('run', lambda c, k: setattr(k, 'code', b'\xb1')))
    def longer(c): a = c.attribute(c.method('run'), 'Code'); a[1] += b'\0'
    row('code_with_a_byte_behind_it_4.7.3', shape, longer)
    row('handler_of_any_class_4.7.3', shape, code_of('pick', lambda c, k: k.handlers[0].__setitem__(3, 0)))
    row('handler_of_a_text_4.7.3', shape, code_of('pick', lambda c, k: k.handlers[0].__setitem__(3, c.text('x'))))
    row('handler_of_an_array_class_4.7.3', shape, code_of('pick', lambda c, k: k.handlers[0].__setitem__(3, c.klass('[I'))))
    row('code_attribute_without_a_name_4.7', shape, code_of('run', lambda c, k: k.attributes.append([c.this, b''])))
    row('two_tables_of_frames_4.7.4', shape, code_of('pick', lambda c, k: k.attributes.append(next(a for a in k.attributes if c.of(a[0]) == 'StackMapTable'))))
    row('a_table_of_frames_of_any_bytes_4.7.4', shape, code_of('pick', lambda c, k: next(a for a in k.attributes if c.of(a[0]) == 'StackMapTable').__setitem__(1, b'\1\2\3')))
    row('two_methods_alike_4.6', shape, twice('methods', 'area'))
    row('two_methods_alike_by_other_entries_4.6', shape, twice('methods', 'area', name=lambda c: c.text('area'), descriptor=lambda c: c.text('()I')))
    row('two_methods_of_one_name_4.6', shape, twice('methods', 'area', descriptor=lambda c: c.text('()J')))
    row('two_methods_of_one_descriptor_4.6', shape, twice('methods', 'area', name=lambda c: c.text('size')))
    # texts of the pool
    for title, text in (
        ('a_zero_takes_two_bytes', 'c080'), ('a_raw_zero', '00'), ('a_form_of_four_bytes', 'f09f9880'), ('a_long_form_of_a_letter', 'c181'), ('a_euro_sign', 'e282ac'),
        ('a_long_form_of_three_bytes', 'e08080'), ('half_of_a_pair', 'eda080'), ('a_text_cut_off', 'c3')):
        row(title + '_4.4.7', shape, lambda c: c.text(bytes.fromhex(text)))
    row('a_long_in_the_last_place_4.4.5', shape, lambda c: c.pool.append([5, bytes(8)]))
    rows.append(('nothing_behind_the_count_4.1', 'cafebabe00000034ffff'))
    rows.append(('a_count_of_zero_4.1', 'cafebabe000000340000' + shape.bytes().hex()[20:]))
    # descriptors and names
    for title, text in (
        ('an_int', 'I'), ('a_long', 'J'), ('an_array_of_longs', '[J'), ('a_string_array', '[[Ljava/lang/String;'), ('a_void_field', 'V'), ('two_types', 'II'),
        ('an_unended_class', 'Ljava/lang/String'), ('a_class_with_an_empty_part', 'La//b;'), ('no_element', '[')): row(title + '_4.3.2', shape, f('sum', descriptor=lambda c: c.text(text)))
    for title, text in (
        ('four_parameters', '(IDLThread;[J)V'), ('none', '()I'), ('unended', '(I'), ('without_a_result', '(I)'), ('a_void_parameter', '(V)I'), ('a_result_and_more', '()VI'), ('no_parenthesis', 'I')):
        row(title + '_4.3.3', shape, m('area', descriptor=lambda c: c.text(text)))
    for title, text in (('a_class', 'java/lang/Object'), ('an_empty_part', 'java//Object'), ('dots', 'java.lang.Object'), ('angles', '<x>'), ('init', '<init>'), ('clinit', '<clinit>'), ('a_parenthesis', 'a(')):
        row(title + '_4.2', shape, lambda c: c.klass(text))

# what is accepted; all else is refused
WANTED = """
javac_Stage javac_Gain javac_Pick javac_Pick$Inner javac_Shape version_50_4.1 version_51_4.1 an_undefined_flag_4.1
a_second_place_of_a_long_4.4.5 class_named_as_an_array_type_4.4.1 field_of_its_descriptor_4.4.2 method_of_its_descriptor_4.4.2
interface_method_of_its_descriptor_4.4.2 string_of_a_text_4.4.3 name_and_type_of_an_initializer_4.4.6 name_and_type_of_a_field_with_angles_4.4.6
handle_of_kind_1_of_a_field_4.4.8 handle_of_kind_5_of_a_method_4.4.8 handle_of_kind_7_of_a_interface_method_4.4.8 handle_of_kind_9_of_a_interface_method_4.4.8
method_type_of_a_method_4.4.9 dynamic_of_a_method_4.4.10 no_superclass_4.1 interface_that_is_abstract_4.1 field_name_with_angles_4.2.2
field_of_255_dimensions_4.3.2 public_field_4.5 private_field_4.5 protected_field_4.5 int_of_another_int_4.7.2 string_of_another_string_4.7.2
constant_of_a_field_B_4.7.2 constant_of_a_field_C_4.7.2 constant_of_a_field_S_4.7.2 constant_of_a_field_Z_4.7.2 constant_of_a_field_J_4.7.2
constant_of_a_field_F_4.7.2 constant_of_a_field_D_4.7.2 constant_of_an_instance_field_of_another_type_4.7.2 code_on_a_field_4.7.3
two_fields_of_one_name_4.5 two_fields_of_one_type_4.5 method_of_254_words_and_this_4.3.3 static_method_of_255_words_4.3.3
static_method_of_127_longs_and_an_int_4.3.3 static_method_of_255_arrays_of_longs_4.3.3 abstract_and_public_method_4.6
abstract_and_protected_method_4.6 abstract_and_varargs_method_4.6 class_initializer_of_an_interface_2.9 private_initializer_4.6
native_method_without_code_4.7.3 constant_on_a_method_4.7.2 code_of_one_byte_4.7.3 handler_of_any_class_4.7.3 handler_of_an_array_class_4.7.3
a_table_of_frames_of_any_bytes_4.7.4 two_methods_of_one_name_4.6 two_methods_of_one_descriptor_4.6
a_zero_takes_two_bytes_4.4.7 a_euro_sign_4.4.7 half_of_a_pair_4.4.7 an_int_4.3.2 a_long_4.3.2 an_array_of_longs_4.3.2 a_string_array_4.3.2
four_parameters_4.3.3 none_4.3.3 a_class_4.2 angles_4.2 init_4.2 clinit_4.2 a_parenthesis_4.2
""".split()

VERSIONS = {'version_49_4.1': 'version 49', 'version_53_4.1': 'version 53'}

main(sys.argv[1])
assert len({title for title, _ in rows}) == len(rows) and set(WANTED) | set(VERSIONS) <= {title for title, _ in rows}
tables = os.path.join(os.path.dirname(os.path.abspath(__file__)), '../../tables')
with open(os.path.join(tables, 'classes.read'), 'w') as given, open(os.path.join(tables, 'classes.wanted'), 'w') as wants:
    for title, digits in rows:
        given.write(title + ' ' + digits + '\n')
        wants.write(title + ': ' + VERSIONS.get(title, 'a class file' if title in WANTED else 'bad') + '\n')
