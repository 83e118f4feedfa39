"""Writes the table of refusals, tests/tables/refusals: small classes in the shape that javac gives them, and the same with one thing changed.

    python3 refusals.py

Each row has a title, the class whose main is run, the files, and what refuses them, which was worked out by hand from the order of the passes:
files are read; names; what isn't supported; superclasses and superinterfaces; the hierarchy; all else that is named; the number of files; main.
In each pass the files in their order, of each file its places in theirs. Core classes have the numbers 0 to 22, so file 0 is class 23.
What a line names is what was put into the pool at the entry; a class that isn't there stands beside the title, in `MISSING`.
"""
import os, re, struct

def u1(n): return struct.pack('>B', n)
def u2(n): return struct.pack('>H', n)
def u4(n): return struct.pack('>I', n)

PUBLIC, PRIVATE, PROTECTED, STATIC, FINAL, SUPER, INTERFACE, ABSTRACT, NATIVE = 1, 2, 4, 8, 16, 32, 512, 1024, 256

class Maker:
    """A class file: its pool grows as things are mentioned."""
    def __init__(self, name, superclass='java/lang/Object', flags=PUBLIC | SUPER, interfaces=(), major=52):
        self.pool, self.index, self.name = [None], {}, name
        self.major, self.flags = major, flags
        self.this = self.klass(name)
        self.superclass = self.klass(superclass) if superclass else 0
        self.interfaces = [self.klass(i) for i in interfaces]
        self.fields, self.methods = [], []
        self.code = self.text('Code')
    def entry(self, key, data, places=1):
        if key not in self.index:
            self.index[key] = len(self.pool)
            self.pool += [data] + [b''] * (places - 1)
        return self.index[key]
    def text(self, s): return self.entry(('t', s), u1(1) + u2(len(s.encode())) + s.encode())
    def klass(self, s): return self.entry(('c', s), u1(7) + u2(self.text(s)))
    def string(self, s): return self.entry(('s', s), u1(8) + u2(self.text(s)))
    def float(self): return self.entry('f', u1(4) + u4(0x3F800000))
    def double(self): return self.entry('d', u1(6) + u4(0x3FF00000) + u4(0), 2)
    def handle(self, ref): return self.entry(('h', ref), u1(15) + u1(6) + u2(ref))
    def method_type(self, s): return self.entry(('mt', s), u1(16) + u2(self.text(s)))
    def nt(self, n, d): return self.entry(('n', n, d), u1(12) + u2(self.text(n)) + u2(self.text(d)))
    def fieldref(self, c, n, d): return self.entry(('F', c, n, d), u1(9) + u2(self.klass(c)) + u2(self.nt(n, d)))
    def methodref(self, c, n, d): return self.entry(('M', c, n, d), u1(10) + u2(self.klass(c)) + u2(self.nt(n, d)))
    def imethodref(self, c, n, d): return self.entry(('I', c, n, d), u1(11) + u2(self.klass(c)) + u2(self.nt(n, d)))
    def field(self, name, descriptor, flags=PUBLIC): self.fields.append((flags, self.text(name), self.text(descriptor))); return self
    def method(self, name, descriptor, flags=PUBLIC, code=None, handlers=(), frames=None):
        attributes = b''
        if code is not None:
            inner = b''
            if frames is not None: inner = u2(self.text('StackMapTable')) + u4(len(frames)) + frames
            body = u2(4) + u2(8) + u4(len(code)) + code + u2(len(handlers)) + b''.join(u2(a) + u2(b) + u2(c) + u2(d) for a, b, c, d in handlers)
            body += u2(1 if frames is not None else 0) + inner
            attributes = u2(self.code) + u4(len(body)) + body
        self.methods.append((flags, self.text(name), self.text(descriptor), attributes))
        return self
    def init(self, superclass='java/lang/Object', flags=PUBLIC):
        return self.method('<init>', '()V', flags, b'\x2a\xb7' + u2(self.methodref(superclass, '<init>', '()V')) + b'\xb1')
    def main(self, code=b'\xb1', handlers=(), frames=None): return self.method('main', '([Ljava/lang/String;)V', PUBLIC | STATIC, code, handlers, frames)
    def bytes(self):
        out = b'\xca\xfe\xba\xbe' + u2(0) + u2(self.major) + u2(len(self.pool)) + b''.join(self.pool[1:])
        out += u2(self.flags) + u2(self.this) + u2(self.superclass) + u2(len(self.interfaces)) + b''.join(map(u2, self.interfaces))
        out += u2(len(self.fields)) + b''.join(u2(f) + u2(n) + u2(d) + u2(0) for f, n, d in self.fields)
        out += u2(len(self.methods)) + b''.join(u2(f) + u2(n) + u2(d) + (u2(1) + a if a else u2(0)) for f, n, d, a in self.methods)
        return out + u2(0)

# the first class that isn't there, of an entry that is refused for that
MISSING = {
    'no-superclass-there': 'B', 'no-superinterface-there': 'J', 'superclass-before-superinterface': 'B', 'supertypes-before-hierarchy': 'E',
    'no-class-of-new': 'X', 'no-class-of-array': 'X', 'no-class-of-field': 'java/lang/System', 'no-class-in-descriptor': 'X', 'no-class-in-field-descriptor': 'X',
    'no-class-before-its-descriptor': 'Y', 'second-class-of-a-descriptor': 'X', 'class-of-a-result': 'X', 'class-behind-known-ones': 'p/X', 'class-of-other-letters': 'p/\u0416\u20ac',
    'field-descriptor': 'X', 'method-descriptor': 'X', 'second-class-of-a-method': 'X', 'caught-class': 'X', 'class-in-a-frame': 'X', 'instruction-before-handler': 'Z', 'handler-before-frame': 'Y',
    'field-before-code': 'X', 'supertypes-before-hierarchy-behind-it': 'E', 'mentions-by-file': 'X', 'mentions-before-main': 'X',
}

def named(title, maker, entry, why):
    """What the line names of the entry of a pool."""
    if why == 'NoClass': return MISSING[title]
    kind, *parts = next(key for key, index in maker.index.items() if index == entry)
    return parts[0] if kind == 'c' else f'{parts[0]}.{parts[1]}{parts[2]}'

def line(title, wanted, files):
    """The line that link puts of the refusal."""
    if wanted.startswith(('linked ', 'not verified')): return wanted
    if m := re.match(r'unresolved file=(\d+) entry=(\d+) why=(.*)', wanted): return f'link: {wanted} name={named(title, files[int(m[1])], int(m[2]), m[3])}'
    if m := re.match(r'duplicate file=(\d+) class=(\d+)', wanted): return f'link: duplicate file={m[1]} name={files[int(m[1])].name}'
    return f'link: {wanted}'

rows = []
def row(title, wanted, *files, main='A'):
    rows.append((title, main, [f if isinstance(f, bytes) else f.bytes() for f in files], line(title, wanted, files)))

def A(**more): return Maker('A', **more).init()
def with_main(m): return m.main()
def good(name='A', **more): return Maker(name, **more).init().main()
def code(*parts): return b''.join(u1(p) if isinstance(p, int) else p for p in parts)

# how many of the core classes: 23 classes; methods 1 + 0 + 0 + 2 + 3 + 2 * 17 + 2 = 42, fields 2, types 8 arrays of numbers and the classes
CORE_METHODS = 42
def linked(files, methods, types=0, is_verified=True):
    """What comes of so many files with so many methods with code, beside the 8 types of arrays of numbers, a type for each class, and String[]."""
    if not is_verified: return 'not verified'
    return f'linked classes={23 + files + 1} methods={CORE_METHODS + methods + 1} types={8 + 23 + files + 1 + 1 + types}'

# ---- what links: String[] is a type that boot mentions
row('one-class', linked(1, 1), Maker('A').main())
row('class-in-a-package', linked(1, 2), good('p/A'), main='p/A')
row('interface-with-main-flags', linked(2, 2), good(), Maker('I', flags=PUBLIC | INTERFACE | ABSTRACT))

# ---- pass 1: files are read
row('empty-file', 'bad class file=0', b'')
row('bad-class', 'bad class file=1', good(), good('B').bytes() + b'\x00')
m = good(); m.major = 53
row('version-53', 'unsupported version file=0 major=53', m)
m = good(); m.major = 49
row('version-49', 'unsupported version file=0 major=49', m)
m = good(); m.major = 53
row('version-before-bad', 'unsupported version file=0 major=53', m, b'')
row('bad-before-version', 'bad class file=0', b'', m)
row('version-of-no-class', 'unsupported version file=0 major=53', m.bytes()[:8])

# ---- pass 2: names
row('duplicate', 'duplicate file=1 class=23', good(), good())
row('duplicate-of-three', 'duplicate file=2 class=24', good(), good('B'), good('B'))
row('duplicate-of-core', 'duplicate file=0 class=3', Maker('java/lang/String').main(), main='java/lang/String')
row('duplicate-of-io', 'duplicate file=1 class=22', good(), good('jop/Io'))
row('duplicate-of-boot', 'duplicate file=0 class=25', good('jop/Boot'), good())
row('bad-before-duplicate', 'bad class file=2', good(), good(), b'')

# ---- pass 3: what isn't supported
def unsupported(title, instruction, item, at=0):
    m = Maker('A').init().main(code(instruction, 0xb1))
    row(title, f'unsupported file=0 method=1 pc={at} item={item}', m)
unsupported('fadd', b'\x62', 'fadd')
unsupported('dload', b'\x18\x00', 'dload')
unsupported('dcmpg', b'\x98', 'dcmpg')
unsupported('lmul', b'\x69', 'lmul')
unsupported('ldiv', b'\x6d', 'ldiv')
unsupported('lrem', b'\x71', 'lrem')
unsupported('jsr', b'\xa8\x00\x03', 'jsr')
unsupported('ret', b'\xa9\x00', 'ret')
unsupported('wide-fload', b'\xc4\x17\x00\x01', 'fload')
unsupported('wide-ret', b'\xc4\xa9\x00\x01', 'ret')
unsupported('breakpoint', b'\xca', 'breakpoint')
unsupported('impdep1', b'\xfe', 'impdep1')
unsupported('impdep2', b'\xff', 'impdep2')
unsupported('jsr_w', b'\xc9\x00\x00\x00\x05', 'jsr_w')
unsupported('behind-a-nop', b'\x00\x6a', 'fmul', at=1)
unsupported('newarray-float', b'\x03\xbc\x06', 'newarray float', at=1)
unsupported('newarray-double', b'\x03\xbc\x07', 'newarray double', at=1)
m = Maker('A'); m.main(code(0x12, u1(m.float()), 0xb1))
row('ldc-float', 'unsupported file=0 method=0 pc=0 item=ldc float', m)
m = Maker('A'); m.main(code(0x13, u2(m.klass('A')), 0xb1))
row('ldc_w-class', 'unsupported file=0 method=0 pc=0 item=ldc class', m)
m = Maker('A'); m.main(code(0x12, u1(m.method_type('()V')), 0xb1))
row('ldc-method-type', 'unsupported file=0 method=0 pc=0 item=ldc method', m)
m = Maker('A'); m.main(code(0x12, u1(m.handle(m.methodref('A', 'main', '([Ljava/lang/String;)V'))), 0xb1))
row('ldc-method-handle', 'unsupported file=0 method=0 pc=0 item=ldc method', m)
m = Maker('A'); m.main(code(0x14, u2(m.double()), 0xb1))
row('ldc2_w-double', 'unsupported file=0 method=0 pc=0 item=ldc2_w double', m)
m = Maker('A'); m.main(code(0xba, u2(1), 0, 0, 0xb1))
row('invokedynamic', 'unsupported file=0 method=0 pc=0 item=invokedynamic', m)
m = Maker('A'); m.main(code(0xc5, u2(m.klass('[[I')), 2, 0xb1))
row('multianewarray', 'unsupported file=0 method=0 pc=0 item=multianewarray', m)
row('field-of-float', 'unsupported file=0 field=1 item=descriptor F', good().field('x', 'I').field('y', '[F'))
row('field-of-double', 'unsupported file=0 field=0 item=descriptor D', good().field('y', 'D'))
row('method-of-float', 'unsupported file=0 method=2 item=descriptor F', good().method('f', '(DF)V', PUBLIC | STATIC, b'\xb1'))
row('method-gives-double', 'unsupported file=0 method=2 item=descriptor D', good().method('f', '()D', PUBLIC | ABSTRACT))
m = Maker('A'); m.main(code(0xb2, u2(m.fieldref('B', 'x', 'F')), 0xb1))
row('named-float-field', 'unsupported file=0 method=0 pc=0 item=descriptor F', m)
m = Maker('A'); m.main(code(0xb8, u2(m.methodref('B', 'f', '(I)D')), 0xb1))
row('named-double-method', 'unsupported file=0 method=0 pc=0 item=descriptor D', m)
row('native', 'unsupported file=0 method=2 item=native', good().method('f', '()V', PUBLIC | NATIVE))
row('native-of-float', 'unsupported file=0 method=2 item=descriptor F', good().method('f', '(F)V', PUBLIC | NATIVE))
row('interface-code', 'unsupported file=1 method=0 item=interface code', good(), Maker('I', flags=PUBLIC | INTERFACE | ABSTRACT).method('f', '()V', PUBLIC, b'\xb1'))
row('interface-static-code', 'unsupported file=1 method=0 item=interface code', good(), Maker('I', flags=PUBLIC | INTERFACE | ABSTRACT).method('f', '()V', PUBLIC | STATIC, b'\xb1'))
row('interface-clinit', linked(2, 3), good(), Maker('I', flags=PUBLIC | INTERFACE | ABSTRACT).method('<clinit>', '()V', STATIC, b'\xb1'))
row('code-behind-a-bad-place', linked(1, 1, is_verified=False), Maker('A').main(b'\xcb\x62\xb1'))
row('field-before-method', 'unsupported file=0 field=0 item=descriptor D', good().method('f', '(F)V', PUBLIC | STATIC, b'\xb1').field('y', 'D'))
row('duplicate-before-unsupported', 'duplicate file=1 class=23', Maker('A').main(b'\x62\xb1'), good())
row('unsupported-in-the-first-file', 'unsupported file=0 method=0 pc=0 item=fadd', Maker('A').main(b'\x62\xb1'), Maker('B').field('x', 'F'))

# ---- pass 4: superclasses and superinterfaces
m = good(superclass='B')
row('no-superclass-there', f'unresolved file=0 entry={m.superclass} why=NoClass', m)
m = good(interfaces=['java/io/Serializable', 'J'])
row('no-superinterface-there', f'unresolved file=0 entry={m.interfaces[1]} why=NoClass', m)
m = good(superclass='p/B')
row('superclass-not-accessible', f'unresolved file=0 entry={m.superclass} why=NotAccessible', m, Maker('p/B', flags=SUPER).init())
m = good('p/A', superclass='p/B')
row('superclass-of-one-package', linked(2, 3, is_verified=False), m, Maker('p/B', flags=SUPER).init(), main='p/A')
m = good(superclass='jop/Boot')
row('boot-as-superclass', f'unresolved file=0 entry={m.superclass} why=NotAccessible', m)
m = good(superclass='B')
row('unsupported-before-supertypes', 'unsupported file=1 field=0 item=descriptor F', m, Maker('C').field('x', 'F'))
m = good(superclass='B', interfaces=['J'])
row('superclass-before-superinterface', f'unresolved file=0 entry={m.superclass} why=NoClass', m)

# ---- pass 5: the hierarchy
row('no-superclass', 'bad hierarchy file=0', Maker('A', superclass=None).main())
row('final-superclass', 'bad hierarchy file=1', good(), Maker('B', superclass='java/lang/String'))
row('interface-as-superclass', 'bad hierarchy file=0', Maker('A', superclass='java/io/Serializable').main())
row('class-as-superinterface', 'bad hierarchy file=0', Maker('A', interfaces=['java/lang/Throwable']).main())
row('interface-below-a-class', 'bad hierarchy file=1', good(), Maker('I', superclass='java/lang/Throwable', flags=PUBLIC | INTERFACE | ABSTRACT))
row('own-superclass', 'bad hierarchy file=0', Maker('A', superclass='A').main())
row('cycle-of-superclasses', 'bad hierarchy file=1', good(), Maker('B', superclass='C'), Maker('C', superclass='B'))
I = PUBLIC | INTERFACE | ABSTRACT
row('cycle-of-superinterfaces', 'bad hierarchy file=1', good(), Maker('I', flags=I, interfaces=['J']), Maker('J', flags=I, interfaces=['K']), Maker('K', flags=I, interfaces=['I']))
row('only-reaches-a-cycle', 'bad hierarchy file=2', good(), Maker('D', superclass='B'), Maker('B', superclass='C'), Maker('C', superclass='B'))
base = Maker('B').init().method('f', '()V', PUBLIC | FINAL, b'\xb1')
row('overrides-final', 'bad hierarchy file=0', Maker('A', superclass='B').main().method('f', '()V', PUBLIC, b'\xb1'), base)
row('other-descriptor-than-final', linked(2, 4), Maker('A', superclass='B').main().method('f', '(I)V', PUBLIC, b'\xb1'), base)
row('private-final', linked(2, 4), Maker('A', superclass='B').main().method('f', '()V', PUBLIC, b'\xb1'), Maker('B').init().method('f', '()V', PRIVATE | FINAL, b'\xb1'))
row('package-final-of-another-package', linked(2, 4), Maker('A', superclass='p/B').main().method('f', '()V', PUBLIC, b'\xb1'), Maker('p/B').init().method('f', '()V', FINAL, b'\xb1'))
row('overrides-final-through-another', 'bad hierarchy file=0', Maker('A', superclass='p/C').main().method('f', '()V', PUBLIC, b'\xb1'),
    Maker('p/C', superclass='p/B').method('f', '()V', PUBLIC | FINAL, b'\xb1'), Maker('p/B').init().method('f', '()V', 0, b'\xb1'))
row('final-init', 'bad hierarchy file=0', Maker('A', superclass='B').init('B').main(), Maker('B').init(flags=PUBLIC | FINAL))
row('final-before-a-cycle', 'bad hierarchy file=0', Maker('A', superclass='B').main().method('f', '()V', PUBLIC, b'\xb1'), base, Maker('C', superclass='C'))
row('cycle-before-final', 'bad hierarchy file=0', Maker('C', superclass='C'), Maker('A', superclass='B').main().method('f', '()V', PUBLIC, b'\xb1'), base)
m = Maker('D', superclass='E')
row('supertypes-before-hierarchy', f'unresolved file=1 entry={m.superclass} why=NoClass', Maker('A', superclass='A').main(), m)

# ---- pass 6: all else
def mention(title, why, make, *files, entry, linkage=None):
    m = Maker('A').init(); i = make(m); m.main(code(i, 0xb1))
    row(title, f'unresolved file=0 entry={entry(m)} why={why}', m, *files)
B = Maker('B').init().field('x', 'I', PUBLIC | STATIC).field('y', 'I', PUBLIC).field('z', 'I', PRIVATE | STATIC).field('w', 'I', PUBLIC | STATIC | FINAL) \
    .method('f', '()V', PUBLIC | STATIC, b'\xb1').method('g', '()V', PUBLIC, b'\xb1').method('h', '()V', PRIVATE | STATIC, b'\xb1').method('k', '()V', PRIVATE, b'\xb1') \
    .method('<clinit>', '()V', STATIC, b'\xb1').field('v', 'I', PUBLIC | FINAL)
P = Maker('p/B').init(flags=PROTECTED).field('x', 'I', STATIC).field('y', 'I', PROTECTED).field('s', 'I', PROTECTED | STATIC).method('f', '()V', PROTECTED, b'\xb1')
Q = Maker('p/Q', flags=SUPER).init().field('x', 'I', PUBLIC | STATIC)
T = Maker('T', flags=PUBLIC | SUPER | ABSTRACT).init().method('f', '()V', PUBLIC | ABSTRACT)
J = Maker('J', flags=I).method('f', '()V', PUBLIC | ABSTRACT)

def one(title, why, op, ref, *files, tail=b'', before=b''):
    m = Maker('A').init(); i = ref(m); m.main(code(before, op, u2(i), tail, 0xb1))
    row(title, f'unresolved file=0 entry={i} why={why}', m, *files)
def fine(title, op, ref, *files, tail=b'', methods=0, types=0, is_verified=True):
    m = Maker('A').init(); i = ref(m); m.main(code(op, u2(i), tail, 0xb1))
    row(title, linked(1 + len(files), 2 + methods, types, is_verified), m, *files)

one('no-class-of-new', 'NoClass', 0xbb, lambda m: m.klass('X'))
one('no-class-of-array', 'NoClass', 0xbd, lambda m: m.klass('[LX;'))
one('no-class-of-field', 'NoClass', 0xb2, lambda m: m.fieldref('java/lang/System', 'out', 'Ljava/io/PrintStream;'))
one('no-class-in-descriptor', 'NoClass', 0xb8, lambda m: m.methodref('B', 'f', '(LX;)V'), B)
one('no-class-in-field-descriptor', 'NoClass', 0xb2, lambda m: m.fieldref('B', 'nothing', '[[LX;'), B)
one('no-class-before-its-descriptor', 'NoClass', 0xb8, lambda m: m.methodref('[[LY;', 'f', '(LX;)V'))
one('second-class-of-a-descriptor', 'NoClass', 0xb8, lambda m: m.methodref('B', 'f', '(ILB;[[LX;LY;)LZ;'), B)
one('class-of-a-result', 'NoClass', 0xb8, lambda m: m.methodref('B', 'f', '(JLA;)[LX;'), B)
one('class-behind-known-ones', 'NoClass', 0xb6, lambda m: m.methodref('jop/Boot', 'f', '(LA;Ljop/Boot;LB;Ljava/lang/StackOverflowError;Ljop/Io;)Lp/X;'), B)
one('class-of-other-letters', 'NoClass', 0xbb, lambda m: m.klass('p/\u0416\u20ac'))
one('no-field', 'NoField', 0xb2, lambda m: m.fieldref('B', 'x', 'J'), B)
one('no-field-of-array', 'NoField', 0xb4, lambda m: m.fieldref('[I', 'length', 'I'))
one('no-method', 'NoMethod', 0xb8, lambda m: m.methodref('B', 'f', '(I)V'), B)
one('no-method-of-array', 'NoMethod', 0xb6, lambda m: m.methodref('[I', 'clone', '()Ljava/lang/Object;'))
one('init-is-not-inherited', 'NoMethod', 0xb7, lambda m: m.methodref('C', '<init>', '()V'), Maker('C', superclass='B'), B)
one('class-not-accessible', 'NotAccessible', 0xbb, lambda m: m.klass('p/Q'), Q)
one('class-of-array-not-accessible', 'NotAccessible', 0xbd, lambda m: m.klass('[Lp/Q;'), Q)
one('field-of-class-not-accessible', 'NotAccessible', 0xb2, lambda m: m.fieldref('p/Q', 'x', 'I'), Q)
one('private-field', 'NotAccessible', 0xb2, lambda m: m.fieldref('B', 'z', 'I'), B)
one('package-field', 'NotAccessible', 0xb2, lambda m: m.fieldref('p/B', 'x', 'I'), P)
one('protected-field', 'NotAccessible', 0xb2, lambda m: m.fieldref('p/B', 's', 'I'), P)
one('final-field-written', 'NotAccessible', 0xb3, lambda m: m.fieldref('B', 'w', 'I'), B)
one('final-before-kind', 'NotAccessible', 0xb3, lambda m: m.fieldref('B', 'v', 'I'), B)
one('private-method', 'NotAccessible', 0xb8, lambda m: m.methodref('B', 'h', '()V'), B)
one('private-before-kind', 'NotAccessible', 0xb6, lambda m: m.methodref('B', 'k', '()V'), B)
one('boot-method', 'NotAccessible', 0xb8, lambda m: m.methodref('jop/Boot', 'boot', '()V'))
one('getstatic-of-instance-field', 'WrongKind', 0xb2, lambda m: m.fieldref('B', 'y', 'I'), B)
one('getfield-of-static-field', 'WrongKind', 0xb4, lambda m: m.fieldref('B', 'x', 'I'), B)
one('invokestatic-of-instance-method', 'WrongKind', 0xb8, lambda m: m.methodref('B', 'g', '()V'), B)
one('invokevirtual-of-static-method', 'WrongKind', 0xb6, lambda m: m.methodref('B', 'f', '()V'), B)
one('invokevirtual-of-init', 'WrongKind', 0xb6, lambda m: m.methodref('B', '<init>', '()V'), B)
one('clinit-called', 'WrongKind', 0xb8, lambda m: m.methodref('B', '<clinit>', '()V'), B)
one('new-of-abstract', 'WrongKind', 0xbb, lambda m: m.klass('T'), T)
one('new-of-interface', 'WrongKind', 0xbb, lambda m: m.klass('J'), J)
one('new-of-array', 'WrongKind', 0xbb, lambda m: m.klass('[I'))
one('methodref-of-interface', 'WrongKind', 0xb6, lambda m: m.methodref('J', 'f', '()V'), J)
one('interface-methodref-of-class', 'WrongKind', 0xb9, lambda m: m.imethodref('B', 'g', '()V'), B, tail=b'\x01\x00')
one('invokespecial-of-abstract', 'WrongKind', 0xb7, lambda m: m.methodref('T', 'f', '()V'), T)
fine('public-field', 0xb2, lambda m: m.fieldref('B', 'x', 'I'), B, methods=6)
fine('wrong-tag-names-nothing', 0xb2, lambda m: m.methodref('X', 'f', '()V'), is_verified=False)
fine('array-of-arrays', 0xbd, lambda m: m.klass('[I'), types=1, is_verified=False)

m = Maker('A').init().method('k', '()V', PRIVATE, b'\xb1'); i = m.methodref('A', 'k', '()V'); m.main(code(0xb6, u2(i), 0xb1))
row('private-by-invokevirtual', f'unresolved file=0 entry={i} why=WrongKind', m)
m = Maker('A', superclass='p/B').init('p/B'); i = m.fieldref('p/B', 's', 'I'); m.main(code(0xb2, u2(i), 0xb1))
row('protected-static-of-superclass', linked(2, 4), m, P)
m = Maker('A', superclass='p/B').init('p/B'); i = m.fieldref('C', 'y', 'I'); m.main(code(0xb4, u2(i), 0xb1))
row('protected-through-another', f'unresolved file=0 entry={i} why=NotAccessible', m, P, Maker('C', superclass='p/B').init('p/B'))
m = Maker('A', superclass='p/B').init('p/B'); i = m.methodref('p/B', 'f', '()V'); m.main(code(0xb6, u2(i), 0xb1))
row('protected-method-of-superclass', linked(2, 4, is_verified=False), m, P)
m = Maker('A').main().field('x', 'I', PUBLIC | STATIC | FINAL); i = m.fieldref('A', 'x', 'I'); m.method('<clinit>', '()V', STATIC, code(0x03, 0xb3, u2(i), 0xb1))
row('final-in-clinit', linked(1, 2), m)
m = Maker('A').main().field('x', 'I', PUBLIC | FINAL); i = m.fieldref('A', 'x', 'I'); m.method('f', '()V', PUBLIC, code(0x2a, 0x03, 0xb5, u2(i), 0xb1))
row('final-not-in-init', f'unresolved file=0 entry={i} why=NotAccessible', m)
m = good('C', interfaces=['J'])
row('not-implemented', f'unresolved file=0 entry={m.this} why=NotImplemented', m, J, main='C')
m = good('C', superclass='T')
row('abstract-method-left', f'unresolved file=0 entry={m.this} why=NotImplemented', m, T, main='C')
row('abstract-class-may-leave', linked(2, 2), good('C', superclass='T', flags=PUBLIC | SUPER | ABSTRACT).__class__('C', 'T', PUBLIC | SUPER | ABSTRACT).main(), T, main='C')
m = good('C', interfaces=['J']).method('f', '()V', 0, b'\xb1')
row('implemented-not-publicly', f'unresolved file=0 entry={m.this} why=NotImplemented', m, J, main='C')
row('implemented', linked(2, 3), good('C', interfaces=['J']).method('f', '()V', PUBLIC, b'\xb1'), J, main='C')
m = good().field('x', 'I').field('y', '[LX;')
row('field-descriptor', f'unresolved file=0 entry={m.text("[LX;")} why=NoClass', m)
m = good().method('f', '(ILX;)V', PUBLIC | STATIC, b'\xb1')
row('method-descriptor', f'unresolved file=0 entry={m.text("(ILX;)V")} why=NoClass', m)
m = good().method('f', '(LA;[B)LX;', PUBLIC | STATIC, b'\xb1')
row('second-class-of-a-method', f'unresolved file=0 entry={m.text("(LA;[B)LX;")} why=NoClass', m)
m = Maker('A').main(b'\x00\xb1', [(0, 1, 1, 0)]); i = m.klass('X'); m.methods = []; m.main(b'\x00\xb1', [(0, 1, 1, 0), (0, 1, 1, i)])
row('caught-class', f'unresolved file=0 entry={i} why=NoClass', m)
m = Maker('A'); i = m.klass('p/Q'); m.main(b'\x00\xb1', [(0, 1, 1, i)])
row('caught-class-not-accessible', f'unresolved file=0 entry={i} why=NotAccessible', m, Q)
m = Maker('A'); i = m.klass('X'); m.main(b'\x00\xb1', (), u2(1) + b'\xfc' + u2(0) + b'\x07' + u2(i))
row('class-in-a-frame', f'unresolved file=0 entry={i} why=NoClass', m)
m = Maker('A'); i = m.klass('p/Q'); m.main(b'\x00\xb1', (), u2(1) + b'\xfc' + u2(0) + b'\x07' + u2(i))
row('frame-needs-no-access', linked(2, 2, is_verified=False), m, Q)
m = Maker('A'); i = m.klass('X'); m.main(b'\x00\xb1', (), u2(2) + b'\xfc' + u2(0) + b'\x07' + u2(i))
row('no-list-of-frames', linked(1, 1, is_verified=False), m)
m = Maker('A'); i = m.klass('X'); j = m.klass('Y'); k = m.klass('Z'); m.main(code(0xbb, u2(k), 0xb1), [(0, 1, 3, j)], u2(1) + b'\xfc' + u2(0) + b'\x07' + u2(i))
row('instruction-before-handler', f'unresolved file=0 entry={k} why=NoClass', m)
m = Maker('A'); i = m.klass('X'); j = m.klass('Y'); m.main(code(0x00, 0xb1), [(0, 1, 1, j)], u2(1) + b'\xfc' + u2(0) + b'\x07' + u2(i))
row('handler-before-frame', f'unresolved file=0 entry={j} why=NoClass', m)
m = Maker('A').field('x', 'LX;'); m.main(code(0xbb, u2(m.klass('Y')), 0xb1))
row('field-before-code', f'unresolved file=0 entry={m.text("LX;")} why=NoClass', m)
m = good('C', interfaces=['J']).field('x', 'LX;')
row('class-before-field', f'unresolved file=0 entry={m.this} why=NotImplemented', m, J, main='C')
m = Maker('A').main(); m2 = Maker('B', superclass='B')
m.field('x', 'LX;')
row('hierarchy-before-mentions', 'bad hierarchy file=1', m, m2)

# ---- the same two causes in the other order of files
row('duplicate-before-unsupported-behind-it', 'duplicate file=1 class=23', good(), good(), Maker('B').main(b'\x62\xb1'))
row('unsupported-before-supertypes-behind-it', 'unsupported file=0 field=0 item=descriptor F', Maker('C').field('x', 'F'), good(superclass='B'))
m = Maker('D', superclass='E')
row('supertypes-before-hierarchy-behind-it', f'unresolved file=0 entry={m.superclass} why=NoClass', m, Maker('A', superclass='A').main())
row('hierarchy-before-mentions-behind-it', 'bad hierarchy file=0', Maker('B', superclass='B'), Maker('A').main().field('x', 'LX;'))
m = Maker('B').field('x', 'LX;')
row('mentions-by-file', f'unresolved file=0 entry={m.text("LX;")} why=NoClass', m, Maker('A').main().field('y', 'LY;'))

# ---- pass 7: the number of files, and main
row('no-main-class', 'no main', good(), main='B')
row('main-of-a-core-class', 'no main', good(), main='java/lang/String')
row('no-main-method', 'no main', A())
row('main-not-static', 'no main', A().method('main', '([Ljava/lang/String;)V', PUBLIC, b'\xb1'))
row('main-not-public', 'no main', A().method('main', '([Ljava/lang/String;)V', STATIC, b'\xb1'))
row('main-of-another-descriptor', 'no main', A().method('main', '()V', PUBLIC | STATIC, b'\xb1'))
row('mentions-before-main', f'unresolved file=0 entry={A().field("x", "LX;").text("LX;")} why=NoClass', A().field('x', 'LX;'), main='B')
row('files-at-the-limit', 'no main', *[Maker(f'A{i}', flags=PUBLIC) for i in range(1024)], main='B')
row('too-many-files', 'too large Classes count=1025 limit=1024', *[Maker(f'A{i}', flags=PUBLIC) for i in range(1025)], main='B')
row('initialization', linked(2, 4), good('A', superclass='B').__class__('A', 'B').main().method('<clinit>', '()V', STATIC, b'\xb1'), Maker('B').init().method('<clinit>', '()V', STATIC, b'\xb1'))

if __name__ == '__main__':
    tables = os.path.join(os.path.dirname(os.path.abspath(__file__)), '../tables')
    with open(os.path.join(tables, 'refusals.resolved'), 'w') as given, open(os.path.join(tables, 'refusals.wanted'), 'w') as wants:
        for title, main, files, wanted in rows:
            given.write(' '.join([title, main] + [f.hex() for f in files]) + '\n')
            wants.write(f'{title}: {wanted}\n')
