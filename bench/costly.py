"""Class files that are made to cost the linker much for their size, each by a number; links.py links them.

overrides        a chain of so many classes that each override one method
frames           so many instructions, a frame at each, and as many local variables of which nothing is known
known-frames     the same, where each local variable holds an object
waves            the same, where each frame has a local variable more or one less than the one before it
handlers         so many instructions, and as many entries of an exception table that cover all of them
framed-handlers  the same with a frame at each instruction
ranges           the same where each entry begins at another instruction
targets          so many entries that cover as many instructions and lead to as many handlers
guarded          so many instructions, as many local variables, and one entry
stores           so many stores that change the type of a local variable, and as many entries that cover all of them
handled          the same where each entry has a handler of its own, all with the same local variables
handled-apart    the same where the local variables of each handler differ from those of the handler before it
handled-new      so many objects that are made and stored, under as many entries that each lead to a handler with local variables of its own
written          so many stores, at most 6,500, into as many local variables, and then as many branches as there is room for
interfaces       so many interfaces, each of which extends all before it, and a class that implements all
layers           a third of so many interfaces below one of the rest, which extends the others of the rest, and a third that each extend those
descriptors      so many methods of one descriptor of 65,000 characters, and calls of them
framed-names     so many methods like these, with a frame each, and no calls
named-frames     so many instructions of one such method, and a frame at each
branches         so many branches, at most 8,191, to one frame with 65,535 local variables that hold objects
apart            the same where the local variables hold objects of another class before the branches
mixed-apart      the same where those at the frame are of one class or another, without any order
cases            a switch of so many cases that lead to one such frame
beginnings       so many objects that are made and initialised, and 65,535 local variables
stored           the same where each object is stored before, beside local variables of one class or another, without any order
uninitialized    the same where the local variables hold such objects that aren't initialised, without any order
prefixes         so many fields, whose names have 2,000 characters and differ in the last eight
colliding        so many fields, at most 60,000, whose names stand at one place of a hash table of the toolchain (colliding.c searches for them)
"""
import os
import struct
import subprocess
import tempfile

from classfile import ClassFile

MAIN, OBJECT, THROWABLE, MOST = 'p/Main', 'java/lang/Object', 'java/lang/Throwable', 65535
NOP, RETURN, GOTO, ATHROW = b'\x00', b'\xb1', b'\xa7', b'\xbf'


def u2(n):
    return struct.pack('>H', n)


def u4(n):
    return struct.pack('>I', n)


def method(made, name, descriptor, code, entries=b'', frames=(), stack=4, local=1, flags=9):
    """adds a method with an exception table and with the frames of a StackMapTable"""
    attributes = b'\0\0'
    if frames:
        table = u2(len(frames)) + b''.join(frames)
        attributes = u2(1) + u2(made.utf8('StackMapTable')) + u4(len(table)) + table
    body = u2(stack) + u2(local) + u4(len(code)) + code + u2(len(entries) // 8) + entries + attributes
    made.methods.append(u2(flags) + u2(made.utf8(name)) + u2(made.utf8(descriptor)) + u2(1) + u2(made.utf8('Code')) + u4(len(body)) + body)


def main_of(fill):
    """the class that is run, with what `fill` adds"""
    made = ClassFile(0x21, MAIN)
    method(made, 'main', '([Ljava/lang/String;)V', RETURN)
    fill(made)
    return made.data()


def object_type(made, name=OBJECT):
    return b'\x07' + u2(made.cls(name))


def full_frame(offset, locals, stack=()):
    return b'\xff' + u2(offset) + u2(len(locals)) + b''.join(locals) + u2(len(stack)) + b''.join(stack)


def same_frame(offset):
    return bytes([offset]) if offset < 64 else b'\xfb' + u2(offset)


def object_frame(made, offset, count):
    """all local variables hold objects of one class"""
    return full_frame(offset, [object_type(made, MAIN)] * count)


def overrides(count):
    def one(number):
        made = ClassFile(0x21, 'p/C%d' % number, 'p/C%d' % (number - 1) if number else OBJECT)
        method(made, 'm', '()V', RETURN, flags=1)
        return made.data()
    return [main_of(lambda made: None)] + [one(number) for number in range(count)]


def frames(count):
    def fill(made):
        method(made, 'f', '()V', NOP * (count - 1) + RETURN, frames=[same_frame(0)] * count, local=count)
    return [main_of(fill)]


def known_frames(count):
    """behind a return, where control never comes"""
    def fill(made):
        first = object_frame(made, 1, count)
        method(made, 'f', '()V', RETURN + NOP * (count - 2) + RETURN, frames=[first] + [same_frame(0)] * (count - 2), local=count)
    return [main_of(fill)]


def entry(start, end, handler, caught=0):
    return u2(start) + u2(end) + u2(handler) + u2(caught)


def caught_frame(made, offset):
    """same_locals_1_stack_item_frame_extended"""
    return b'\xf7' + u2(offset) + object_type(made, THROWABLE)


def covered(count, entries, is_framed):
    """instructions that all entries cover, and behind them the handler: athrow"""
    def fill(made):
        code = NOP * (count - 1) + RETURN + ATHROW
        before = [same_frame(0)] * count if is_framed else []
        method(made, 'f', '()V', code, entry(0, count, count) * entries, before + [caught_frame(made, 0 if is_framed else count)])
    return [main_of(fill)]


def handlers(count):
    return covered(count, count, False)


def framed_handlers(count):
    return covered(count, count, True)


def interfaces(count):
    names = ['p/I%d' % number for number in range(count)]
    files = [ClassFile(0x601, names[number], OBJECT, names[:number]).data() for number in range(count)]
    return [main_of(lambda made: None)] + files + [ClassFile(0x21, 'p/C', OBJECT, names).data()]


def layers(count):
    third = count // 3
    tops, middle = ['p/T%d' % number for number in range(third)], ['p/M%d' % number for number in range(third)]
    files = [ClassFile(0x601, name, OBJECT).data() for name in tops] + [ClassFile(0x601, 'p/All', OBJECT, tops).data()]
    files += [ClassFile(0x601, name, OBJECT, ['p/All']).data() for name in middle]
    return [main_of(lambda made: None)] + files + [ClassFile(0x601, 'p/B%d' % number, OBJECT, middle).data() for number in range(third)]


def called(made, tag, owner, name, descriptor):
    pair = made.entry(b'\x0c' + u2(made.utf8(name)) + u2(made.utf8(descriptor)))
    return u2(made.entry(bytes([tag]) + u2(made.cls(owner)) + u2(pair)))


def descriptors(count):
    """each method takes an object of a class with a long name"""
    name = 'p/' + 'L' * 64990
    def fill(made):
        text = '(L%s;)V' % name
        for number in range(count):
            method(made, 'm%d' % number, text, RETURN)
        calls = b''.join(b'\x01\xb8' + called(made, 10, MAIN, 'm%d' % number, text) for number in range(min(count, 16000)))
        method(made, 'f', '()V', calls + RETURN)
    return [main_of(fill), ClassFile(0x21, name).data()]


def framed_names(count):
    name = 'p/' + 'L' * 64990
    def fill(made):
        for number in range(count):
            method(made, 'm%d' % number, '(L%s;)V' % name, NOP + RETURN, frames=[same_frame(0)])
    return [main_of(fill), ClassFile(0x21, name).data()]


def named_frames(count):
    name = 'p/' + 'L' * 64990
    def fill(made):
        method(made, 'f', '(L%s;)V' % name, NOP * (count - 1) + RETURN, frames=[same_frame(0)] * count)
    return [main_of(fill), ClassFile(0x21, name).data()]


def branches(count):
    """behind a return: nop, and then aconst_null, ifnonnull to the nop"""
    def fill(made):
        code = RETURN + NOP + b''.join(b'\x01\xc7' + struct.pack('>h', -2 - 4 * n) for n in range(count)) + RETURN
        method(made, 'f', '()V', code, frames=[object_frame(made, 1, MOST)], local=MOST)
    return [main_of(fill)]


def apart(count):
    """two returns, and then aconst_null, ifnonnull to the second return"""
    def fill(made):
        code = RETURN * 2 + b''.join(b'\x01\xc7' + struct.pack('>h', -2 - 4 * n) for n in range(count)) + RETURN
        frames = [full_frame(1, [object_type(made)] * MOST), object_frame(made, 0, MOST)]
        method(made, 'f', '()V', code, frames=frames, local=MOST)
    return [main_of(fill)]


def mixed_apart(count):
    names = ['p/A%d' % number for number in range(5)]
    def fill(made):
        code = RETURN * 2 + b''.join(b'\x01\xc7' + struct.pack('>h', -2 - 4 * n) for n in range(count)) + RETURN
        mixed = [object_type(made, names[without_order(n, 5)]) for n in range(MOST)]
        method(made, 'f', '()V', code, frames=[full_frame(1, [object_type(made)] * MOST), full_frame(0, mixed)], local=MOST)
    return [main_of(fill)] + [ClassFile(0x21, name).data() for name in names]


def cases(count):
    """behind a return: iconst_0, tableswitch, all of whose cases lead back to iconst_0"""
    def fill(made):
        code = RETURN + b'\x03\xaa\x00' + struct.pack('>iii', -1, 0, count - 1) + struct.pack('>i', -1) * count
        method(made, 'f', '()V', code, frames=[object_frame(made, 1, MOST)], local=MOST)
    return [main_of(fill)]


def stores(count):
    """iconst_0, istore_0, aconst_null, astore_0"""
    def fill(made):
        code = b'\x03\x3b\x01\x4b' * (count // 2) + RETURN + ATHROW
        end = len(code) - 1
        method(made, 'f', '()V', code, entry(0, end, end) * count, [caught_frame(made, end)])
    return [main_of(fill)]


def under_handlers(made, code, count, descriptor, frame_of, local):
    """a method whose code is covered by entries that each have a handler, an athrow, before which a frame stands"""
    entries = b''.join(entry(0, len(code), len(code) + number) for number in range(count))
    frames = [frame_of(made, number, len(code) if number == 0 else 0) for number in range(count)]
    method(made, 'f', descriptor, code + ATHROW * count, entries, frames, local=local)


def with_stores(count, descriptor, frame_of, local):
    return main_of(lambda made: under_handlers(made, b'\x03\x3b\x01\x4b' * (count // 2) + RETURN, count, descriptor, frame_of, local))


def handled(count):
    return [with_stores(count, '()V', lambda made, number, offset: caught_frame(made, offset), 1)]


def handled_apart(count):
    """the third local variable is of a class and of its superclass in turn"""
    def frame_of(made, number, offset):
        held = object_type(made, ['p/A', MAIN][number % 2])
        return full_frame(offset, [b'\0', b'\0', held], [object_type(made, THROWABLE)])
    return [with_stores(count, '(IILp/A;)V', frame_of, 3), ClassFile(0x21, 'p/A', MAIN).data()]


def handled_new(count):
    """new, astore_0; of the local variables of a handler six are each of one of five classes, by the digits of its number"""
    names = ['p/A%d' % number for number in range(5)]
    def frame_of(made, number, offset):
        held = [object_type(made, names[number // 5 ** digit % 5]) for digit in range(6)]
        return full_frame(offset, [b'\0', b'\0'] + held, [object_type(made, THROWABLE)])
    def fill(made):
        code = (b'\xbb' + u2(made.cls(OBJECT)) + b'\x4b') * count + RETURN
        under_handlers(made, code, count, '(II' + 'Lp/B;' * 6 + ')V', frame_of, 8)
    above = [ClassFile(0x21, name, upper).data() for name, upper in zip(names, [OBJECT] + names)]
    return [main_of(fill)] + above + [ClassFile(0x21, 'p/B', names[4]).data()]


def written(count):
    """iconst_0, wide istore; then iconst_0, ifeq to the return"""
    def fill(made):
        code = b''.join(b'\x03\xc4\x36' + u2(number) for number in range(count))
        branches = min(8000, (65000 - len(code)) // 4)
        end = len(code) + 4 * branches
        code += b''.join(b'\x03\x99' + struct.pack('>h', 4 * (branches - number) - 1) for number in range(branches)) + RETURN
        method(made, 'f', '()V', code, frames=[full_frame(end, [])], local=count)
    return [main_of(fill)]


def beginnings(count):
    """new, invokespecial"""
    def fill(made):
        code = (b'\xbb' + u2(made.cls(OBJECT)) + b'\xb7' + called(made, 10, OBJECT, '<init>', '()V')) * count + RETURN
        method(made, 'f', '()V', code, local=MOST)
    return [main_of(fill)]


def stored_beginnings(made, count):
    """behind a return: new, dup, astore_0, invokespecial; and the places of the `new`s"""
    one = b'\xbb' + u2(made.cls(OBJECT)) + b'\x59\x4b\xb7' + called(made, 10, OBJECT, '<init>', '()V')
    return RETURN + one * count + RETURN, [1 + len(one) * number for number in range(count)]


def without_order(number, count):
    return (number * 2654435761 >> 13) % count


def stored(count):
    names = ['p/A%d' % number for number in range(5)]
    def fill(made):
        code, _ = stored_beginnings(made, count)
        held = [object_type(made, names[without_order(number, 5)]) for number in range(MOST)]
        method(made, 'f', '()V', code, frames=[full_frame(1, held)], local=MOST)
    return [main_of(fill)] + [ClassFile(0x21, name).data() for name in names]


def uninitialized(count):
    def fill(made):
        code, places = stored_beginnings(made, count)
        held = [b'\x08' + u2(places[without_order(number, count)]) for number in range(MOST)]
        method(made, 'f', '()V', code, frames=[full_frame(1, held)], local=MOST)
    return [main_of(fill)]


def targets(count):
    """as many instructions as handlers, each of them an athrow"""
    def fill(made):
        code = NOP * (count - 1) + RETURN + ATHROW * count
        entries = b''.join(entry(0, count, count + number) for number in range(count))
        method(made, 'f', '()V', code, entries, [caught_frame(made, count)] + [caught_frame(made, 0)] * (count - 1))
    return [main_of(fill)]


def waves(count):
    """behind a return: goto to itself, and then returns, where control never comes; chop_frame and append_frame in turn"""
    def fill(made):
        turn = [b'\xfa\0\0', b'\xfc\0\0' + object_type(made, MAIN)]
        frames = [object_frame(made, 1, count), b'\xfa' + u2(2)] + [turn[(n + 1) % 2] for n in range(count - 4)]
        method(made, 'f', '()V', RETURN + GOTO + u2(0) + RETURN * (count - 3), frames=frames, local=count)
    return [main_of(fill)]


def ranges(count):
    """the handler is an athrow behind the instructions"""
    def fill(made):
        code = NOP * (count - 1) + RETURN + ATHROW
        entries = b''.join(entry(number, count, count) for number in range(count))
        method(made, 'f', '()V', code, entries, [caught_frame(made, count)])
    return [main_of(fill)]


def colliding(count):
    """the names are searched for by colliding.c, which gcc compiles"""
    with tempfile.TemporaryDirectory(prefix='jop-bench-') as room:
        search = os.path.join(room, 'colliding')
        subprocess.run(['gcc', '-O2', '-o', search, os.path.join(os.path.dirname(os.path.abspath(__file__)), 'colliding.c')], check=True)
        lines = subprocess.run([search, str(count)], capture_output=True, text=True, check=True).stdout.splitlines()
    def fill(made):
        descriptor = u2(made.utf8('I'))
        for line in lines:
            name = ''.join(chr(int(unit, 16)) for unit in line.split())
            made.fields.append(u2(9) + u2(made.utf8(name)) + descriptor + u2(0))
    return [main_of(fill)]


def prefixes(count):
    def fill(made):
        descriptor = u2(made.utf8('I'))
        for number in range(count):
            made.fields.append(u2(9) + u2(made.utf8('x' * 1992 + '%08d' % number)) + descriptor + u2(0))
    return [main_of(fill)]


def guarded(count):
    """the handler is an athrow behind the instructions, and nothing is known of the local variables"""
    def fill(made):
        method(made, 'f', '()V', NOP * (count - 1) + RETURN + ATHROW, entry(0, count, count), [caught_frame(made, count)], local=count)
    return [main_of(fill)]


MADE = {
    'overrides': overrides, 'frames': frames, 'known-frames': known_frames, 'handlers': handlers, 'framed-handlers': framed_handlers,
    'interfaces': interfaces, 'descriptors': descriptors, 'branches': branches, 'cases': cases, 'stores': stores, 'beginnings': beginnings,
    'apart': apart, 'mixed-apart': mixed_apart, 'written': written, 'handled': handled, 'handled-apart': handled_apart, 'handled-new': handled_new,
    'stored': stored, 'uninitialized': uninitialized, 'layers': layers, 'framed-names': framed_names, 'named-frames': named_frames,
    'targets': targets, 'waves': waves, 'ranges': ranges, 'guarded': guarded, 'prefixes': prefixes,
    'colliding': colliding,
}


def files_of(which, count):
    return MADE[which](count)
