"""Writes tests/tables/rules: small methods, each with the place and the rule that fails first.

    python3 rows.py OUT         # the table
    python3 rows.py OUT hotspot # what HotSpot's verifier says of the same classes, for comparison

What each row has to give was worked out by hand from the JVM Specification (SE 8), 4.7.3, 4.7.4, 4.9.1 and 4.10.1, and
stands beside the row. The classes of javac are read from the folder OUT; make.sh compiles them.
"""
import os, re, subprocess, sys, tempfile

sys.path.append(os.path.join(os.path.dirname(os.path.abspath(__file__)), '..'))
import class_writer as writer
from class_writer import u1, u2, u4

class Pool(writer.Pool):
    def ref(self, tag, text):
        owner, name, descriptor = re.match(r'([^.]+)\.([^(:]+)(?::)?(.*)', text).groups()
        return self.member(tag, owner, name, descriptor)

def operand(pool, text):
    """What stands in braces: f a field, m a method, n an interface's method, c a class, i an int, j a long, s a string."""
    kind, rest = text[0], text[1:]
    return {'f': lambda: pool.ref(9, rest), 'm': lambda: pool.ref(10, rest), 'n': lambda: pool.ref(11, rest), 'c': lambda: pool.cls(rest),
            'i': lambda: pool.int(int(rest)), 'j': lambda: pool.long(int(rest)), 's': lambda: pool.string(rest)}[kind]()

def assemble(pool, text):
    """Hexadecimal bytes, and operands in braces as two bytes, or as one behind a dot."""
    out = b''
    for word in re.findall(r'\.?\{[^}]*\}|[0-9a-fA-F]{2}', text):
        if word.startswith('.'): out += u1(operand(pool, word[2:-1]))
        elif word.startswith('{'): out += u2(operand(pool, word[1:-1]))
        else: out += bytes([int(word, 16)])
    return out

def method(pool, name, flags, locals, stack, code, handlers=(), map=None):
    named = re.match(r'([^(]+)(.*)', name).groups()
    body = assemble(pool, code)
    table = [(s, e, h, pool.cls(c) if c else 0) for s, e, h, c in handlers]
    maps = []
    if map is not None:
        data = assemble(pool, map)
        maps = [writer.attribute(pool.utf8('StackMapTable'), data)]
    indexes = [pool.utf8(text) for text in named]
    return writer.member(flags, *indexes, [writer.attribute(pool.utf8('Code'), writer.code(stack, locals, body, table, maps))])

def classfile(name, parent='java/lang/Object', flags=0x21, fields=(), methods=(), interfaces=(), major=52):
    pool = Pool()
    this, above = pool.cls(name), pool.cls(parent)
    faces = [pool.cls(i) for i in interfaces]
    fs = [writer.member(f, pool.utf8(n), pool.utf8(d)) for f, n, d in fields]
    ms = [m(pool) for m in methods]
    return writer.class_file(pool.pool_bytes(), flags, this, above, faces, fs, ms, version=(0, major))

def has(name, flags, locals, stack, code, handlers=(), map=None): return lambda pool: method(pool, name, flags, locals, stack, code, handlers, map)
def abstract(name): return lambda pool: writer.member(0x401, *(pool.utf8(text) for text in re.match(r'([^(]+)(.*)', name).groups()))

MAIN = has('main([Ljava/lang/String;)V', 9, 1, 0, 'b1')
INIT = has('<init>()V', 1, 1, 1, '2a b7{mjava/lang/Object.<init>()V} b1')

ROWS = []
def row(title, wants, name, locals, stack, code, handlers=(), map=None, flags=9, parent='java/lang/Object', fields=(), more=(), files=(), bare=False):
    """The method of class T; `wants` is `ok`, or the place and the rule. Beside it T has main, and an <init> unless it is `bare`."""
    up = has('<init>()V', 1, 1, 1, '2a b7{m%s.<init>()V} b1' % parent)
    methods = [MAIN] + ([] if bare else [up]) + list(more) + [has(name, flags, locals, stack, code, handlers, map)]
    ROWS.append((title, wants, name, [('T', classfile('T', parent, fields=fields, methods=methods))] + list(files)))

S, O, T = 'java/lang/String', 'java/lang/Object', 'java/lang/Throwable'

def main_row(title, wants, stack, code, map=None, major=52):
    """The class T with main alone."""
    ROWS.append((title, wants, 'main([Ljava/lang/String;)V', [('T', classfile('T', methods=[has('main([Ljava/lang/String;)V', 9, 1, stack, code, (), map)], major=major))]))

# ---- main alone, and the oldest version
main_row('main_alone', 'ok', 0, 'b1')
main_row('version_50_without_a_frame', '1 target', 1, '03 99 0003 b1', major=50)
main_row('version_50_with_a_frame', 'ok', 1, '03 99 0003 b1', map='0001 04', major=50)

# ---- opcode: whole instructions
row('no_opcode', '1 opcode', 'm()V', 0, 1, '00 cb b1')
row('cut_off', '1 opcode', 'm()V', 0, 1, '00 11 00')
row('cut_off_lookupswitch', '1 opcode', 'm()V', 0, 1, '03 ab 0000 00000000 7fffffff b1')
row('wide_of_no_local', '0 opcode', 'm()V', 0, 1, 'c4 00 b1')
row('opcode_before_table', '1 opcode', 'm()V', 0, 1, '00 cb b1', handlers=[(0, 0, 0, None)])

# ---- table: the exception table
row('empty_range', '1 table', 'm()V', 0, 1, '00 00 b1', handlers=[(1, 1, 0, None)])
row('range_backwards', '2 table', 'm()V', 0, 1, '00 00 b1', handlers=[(2, 1, 0, None)])
row('starts_within', '1 table', 'm()V', 0, 1, '10 05 57 b1', handlers=[(1, 3, 3, None)])
row('ends_within', '0 table', 'm()V', 0, 1, '10 05 57 b1', handlers=[(0, 1, 3, None)])
row('handler_within', '0 table', 'm()V', 0, 1, '10 05 57 b1', handlers=[(0, 2, 1, None)])
row('ends_behind', '0 table', 'm()V', 0, 1, '00 00 b1', handlers=[(0, 4, 2, None)])
row('starts_behind', '9 table', 'm()V', 0, 1, '00 00 b1', handlers=[(9, 10, 2, None)])
row('least_start', '1 table', 'm()V', 0, 1, '00 00 00 b1', handlers=[(2, 2, 0, None), (1, 1, 0, None)])
row('table_before_map', '1 table', 'm()V', 0, 1, '00 00 b1', handlers=[(1, 1, 0, None)], map='0001 80')
row('ends_with_the_code', 'ok', 'm()V', 0, 1, '00 b1 57 b1', handlers=[(0, 4, 2, T)], map='0001 42 07{c%s}' % T)

# ---- map: the StackMapTable, and the first frame
row('frame_within', '1 map', 'm()V', 0, 1, '10 00 57 b1', map='0001 01')
row('frame_at_wide_s_second_byte', '1 map', 'm(I)V', 1, 1, 'c4 15 0000 57 b1', map='0001 01')
row('frame_behind', '4 map', 'm()V', 0, 1, '00 00 00 b1', map='0001 04')
row('chops_none', '1 map', 'm()V', 0, 1, '00 00 b1', map='0001 fa 0001')
row('chops_a_long', 'ok', 'm(JI)V', 3, 1, '00 00 b1', map='0002 fa 0001 fa 0000')
row('chops_a_long_twice', '2 map', 'm(J)V', 2, 1, '00 00 b1', map='0002 fa 0001 fa 0000')
row('table_cut_off', '0 map', 'm()V', 0, 1, '00 b1', map='0001')
row('reserved_frame', '0 map', 'm()V', 0, 1, '00 b1', map='0001 80')
row('float_tag', '0 map', 'm()V', 0, 1, '00 b1', map='0001 41 02')
row('names_no_new', '1 map', 'm()V', 0, 1, '00 b1', map='0001 41 08 0000')
row('first_frame_too_long', '0 map', 'm(I)V', 0, 1, 'b1')
row('first_frame_long_too_long', '0 map', 'm(J)V', 1, 1, 'b1')
row('stack_too_deep', '1 map', 'm()V', 0, 0, '00 b1', map='0001 41 01')
row('stack_too_deep_by_a_long', '1 map', 'm()V', 0, 1, '00 b1', map='0001 41 04')
row('too_many_locals', '1 map', 'm()V', 1, 1, '00 b1', map='0001 fd 0001 01 01')
row('map_before_walk', '3 map', 'm()V', 0, 1, '57 00 b1', map='0001 03')

# ---- flow
row('falls_past_the_end', '0 flow', 'm()V', 0, 1, '00')
row('branch_past_the_end', '1 flow', 'm()V', 0, 1, '03 99 ffff', map='0001 00')
row('behind_return', '1 flow', 'm()V', 0, 1, 'b1 00 b1')
row('behind_athrow', '2 flow', 'm()V', 0, 1, '01 bf b1')
row('behind_goto', '3 flow', 'm()V', 0, 1, 'a7 0004 b1 b1', map='0001 04')
row('dead_code_with_a_frame', 'ok', 'm()V', 0, 1, 'b1 b1', map='0001 01')
row('lookupswitch_at_the_end', 'ok', 'm()V', 0, 1, '03 ab 0000 ffffffff 00000000', map='0001 00')
row('flow_before_merge', '1 flow', 'm()V', 0, 1, '03 00', map='0001 01')

# ---- merge
row('stack_heights_differ', '1 merge', 'm()V', 0, 1, '03 b1', map='0001 01')
row('local_differs', '1 merge', 'm(I)V', 1, 1, '00 b1', map='0001 ff 0001 0001 05 0000')
row('integer_to_top', 'ok', 'm(I)V', 1, 1, '00 b1', map='0001 ff 0001 0001 00 0000')
row('null_to_object', 'ok', 'm()V', 0, 1, '01 57 b1', map='0001 41 07{c%s}' % S)
row('class_to_interface', 'ok', 'm()V', 0, 1, '01 57 b1', map='0002 41 07{c%s} fb 0000' % S)
row('object_to_string', '1 merge', 'm(L%s;)V' % O, 1, 1, '2a 57 b1', map='0001 41 07{c%s}' % S)
row('object_to_interface', 'ok', 'm(L%s;)V' % O, 1, 1, '2a 57 b1', map='0001 41 07{cjava/io/Serializable}')
row('array_to_cloneable', 'ok', 'm([I)V', 1, 1, '2a 57 b1', map='0001 41 07{cjava/lang/Cloneable}')
row('array_to_other_array', '1 merge', 'm([I)V', 1, 1, '2a 57 b1', map='0001 41 07{c[B}')
row('strings_to_objects', 'ok', 'm([L%s;)V' % S, 1, 1, '2a 57 b1', map='0001 41 07{c[L%s;}' % O)
row('long_to_top_on_the_stack', '1 merge', 'm()V', 0, 2, '09 57 b1', map='0001 41 00')
row('the_flag_is_lost', '1 merge', '<init>()V', 1, 1, '00 b1', map='0001 ff 0001 0001 00 0000', flags=1, bare=True)
row('uninitialized_to_top', 'ok', 'm()V', 1, 1, 'bb{cT} 4b b1', map='0001 ff 0004 0001 00 0000')
row('uninitialized_to_its_class', '4 merge', 'm()V', 1, 1, 'bb{cT} 4b b1', map='0001 ff 0004 0001 07{cT} 0000')
row('uninitialized_of_another_new', '8 merge', 'm()V', 0, 2, 'bb{cT} bb{cT} 5f 57 57 b1', map='0001 ff 0008 0000 0001 08 0000')
row('merge_before_operand', '1 merge', 'm()V', 0, 1, '03 15 09 b1', map='0001 01')

# ---- operand
row('no_such_local', '0 operand', 'm()V', 1, 1, '15 05 57 b1')
row('long_in_the_last_local', '0 operand', 'm()V', 1, 2, '1e 58 b1')
row('long_stored_in_the_last_local', '1 operand', 'm()V', 1, 2, '09 3f b1')
row('iinc_of_no_local', '0 operand', 'm()V', 1, 1, '84 01 01 b1')
row('wide_local', '1 operand', 'm()V', 1, 1, '00 c4 15 0100 57 b1')
row('ldc_of_nothing', '0 operand', 'm()V', 0, 1, '12 00 57 b1')
row('ldc_of_a_long', '0 operand', 'm()V', 0, 2, '12.{j5} 57 b1')
row('ldc2_w_of_an_int', '0 operand', 'm()V', 0, 2, '14{i5} 58 b1')
row('call_of_a_field', '0 operand', 'm()V', 0, 1, 'b8{fT.f:I} b1', fields=[(9, 'f', 'I')])
row('newarray_of_no_code', '1 operand', 'm()V', 0, 1, '03 bc 03 57 b1')
row('range_of_a_tableswitch', '1 operand', 'm()V', 0, 1, '03 aa 0000 00000000 00000001 00000000 b1')
row('keys_that_do_not_rise', '1 operand', 'm()V', 0, 1, '03 ab 0000 0000001b 00000002 00000005 0000001b 00000005 0000001b b1', map='0001 1c')
row('keys_that_rise', 'ok', 'm()V', 0, 1, '03 ab 0000 0000001b 00000002 ffffffff 0000001b 00000005 0000001b b1', map='0001 1c')
row('fewer_than_no_pairs', '1 operand', 'm()V', 0, 1, '03 ab 0000 0000000b ffffffff b1', map='0001 0c')
FACE = ('F', classfile('F', flags=0x601, methods=[abstract('g(J)V')]))
row('interface_call', 'ok', 'm(LF;)V', 1, 3, '2a 09 b9{nF.g(J)V} 03 00 b1', files=[FACE])
row('argument_words', '2 operand', 'm(LF;)V', 1, 3, '2a 09 b9{nF.g(J)V} 02 00 b1', files=[FACE])
row('fourth_byte', '2 operand', 'm(LF;)V', 1, 3, '2a 09 b9{nF.g(J)V} 03 01 b1', files=[FACE])

# ---- stack
row('pop_of_nothing', '0 stack', 'm()V', 0, 1, '57 b1')
row('pop_of_a_long', '1 stack', 'm()V', 0, 2, '09 57 b1')
row('pop2_splits_a_long', '2 stack', 'm()V', 0, 3, '09 03 58 b1')
row('dup_of_a_long', '1 stack', 'm()V', 0, 4, '09 59 b1')
row('dup_x1_splits_a_long', '2 stack', 'm()V', 0, 6, '09 03 5a b1')
row('dup_x2_over_a_long', 'ok', 'm()V', 0, 4, '09 03 5b b1')
row('dup_x2_splits_a_long', '3 stack', 'm()V', 0, 6, '09 03 03 5b b1')
row('dup2_of_a_long', 'ok', 'm()V', 0, 4, '09 5c b1')
row('dup2_splits_a_long', '2 stack', 'm()V', 0, 6, '09 03 5c b1')
row('dup2_x1_of_a_long', 'ok', 'm()V', 0, 5, '03 09 5d b1')
row('dup2_x1_splits_a_long', '3 stack', 'm()V', 0, 9, '09 03 03 5d b1')
row('dup2_x2_of_longs', 'ok', 'm()V', 0, 6, '09 0a 5e b1')
row('dup2_x2_splits_a_long', '4 stack', 'm()V', 0, 9, '09 03 03 03 5e b1')
row('swap_of_a_long', '2 stack', 'm()V', 0, 3, '03 09 5f b1')
row('swap_under_a_long', '2 stack', 'm()V', 0, 3, '09 03 5f b1')
row('passes_the_limit', '1 stack', 'm()V', 0, 1, '03 03 58 b1')
row('a_long_passes_the_limit', '0 stack', 'm()V', 0, 1, '09 58 b1')
row('iload_of_a_reference', '0 stack', 'm(L%s;)V' % S, 1, 1, '1a 57 b1')
row('aload_of_an_int', '0 stack', 'm(I)V', 1, 1, '2a 57 b1')
row('lload_of_an_int', '0 stack', 'm(II)V', 2, 2, '1e 58 b1')
row('iinc_of_a_reference', '0 stack', 'm(L%s;)V' % S, 1, 1, '84 00 01 b1')
row('istore_splits_a_long', '2 stack', 'm(J)V', 2, 2, '03 3c 1e 58 b1')
row('astore_behind_a_long', '2 stack', 'm(J)V', 3, 2, '01 4c 1e 58 b1')
row('ladd_of_ints', '3 stack', 'm()V', 0, 4, '09 03 03 61 58 b1')
row('iadd_of_a_long', '2 stack', 'm()V', 0, 4, '03 09 60 57 b1')
row('lshl_by_an_int', 'ok', 'm()V', 0, 3, '09 04 79 58 b1')
row('lshl_by_a_long', '2 stack', 'm()V', 0, 4, '09 0a 79 58 b1')
row('lcmp_gives_an_int', 'ok', 'm()I', 0, 4, '09 0a 94 ac')
row('ireturn_of_none', '1 stack', 'm()V', 0, 1, '03 ac')
row('return_of_an_int', '0 stack', 'm()I', 0, 1, 'b1')
row('lreturn_of_an_int', '1 stack', 'm()I', 0, 2, '09 ad')
row('areturn_of_an_object', '1 stack', 'm(L%s;)L%s;' % (O, S), 1, 1, '2a b0')
row('areturn_of_null', 'ok', 'm()L%s;' % S, 0, 1, '01 b0')
row('areturn_of_a_string', 'ok', 'm()L%s;' % O, 0, 1, '12.{sabc} b0')
row('wrong_receiver', '1 stack', 'm(L%s;)I' % O, 1, 1, '2a b6{m%s.length()I} ac' % S)
row('wrong_argument', '1 stack', 'm()V', 0, 1, '01 b8{mT.f(I)V} b1', more=[has('f(I)V', 9, 1, 0, 'b1')])
row('missing_argument', '1 stack', 'm()V', 0, 1, '03 b8{mT.f(II)V} b1', more=[has('f(II)V', 9, 2, 0, 'b1')])
row('iaload_of_bytes', '2 stack', 'm([B)V', 1, 2, '2a 03 2e 57 b1')
row('baload_of_booleans', 'ok', 'm([Z)V', 1, 2, '2a 03 33 57 b1')
row('laload_of_longs', 'ok', 'm([J)J', 1, 2, '2a 03 2f ad')
row('aaload_of_ints', '2 stack', 'm([I)V', 1, 2, '2a 03 32 57 b1')
row('aaload_of_null', 'ok', 'm()L%s;' % S, 0, 2, '01 03 32 b0')
row('aaload_of_arrays', 'ok', 'm([[I)[I', 1, 2, '2a 03 32 b0')
row('length_of_an_object', '1 stack', 'm(L%s;)V' % O, 1, 1, '2a be 57 b1')
row('aastore_of_an_int', '3 stack', 'm([L%s;)V' % S, 1, 3, '2a 03 03 53 b1')
row('lastore_of_an_int', '3 stack', 'm([J)V', 1, 4, '2a 03 03 50 b1')
row('throws_a_string', '1 stack', 'm(L%s;)V' % S, 1, 1, '2a bf')
row('monitor_of_an_int', '1 stack', 'm()V', 0, 1, '03 c2 b1')
row('cast_of_an_int', '1 stack', 'm()V', 0, 1, '03 c0{c%s} 57 b1' % S)
row('super_of_no_superclass', '1 stack', 'm(L%s;)I' % S, 1, 1, '2a b7{m%s.length()I} ac' % S)
row('putstatic_of_an_object', '1 stack', 'm(L%s;)V' % O, 1, 1, '2a b3{fT.s:L%s;} b1' % S, fields=[(9, 's', 'L%s;' % S)])
row('putfield_of_a_long', 'ok', 'm()V', 1, 3, '2a 09 b5{fT.j:J} b1', fields=[(1, 'j', 'J')], flags=1)
row('getfield_of_another', '1 stack', 'm(L%s;)V' % S, 1, 2, '2a b4{fT.j:J} 58 b1', fields=[(1, 'j', 'J')])
row('new_while_on_the_stack', '1 stack', 'm()V', 0, 2, 'b1 bb{cT} 58 b1', map='0001 41 08 0001')
row('new_forgets_locals', '4 stack', 'm()V', 1, 2, 'b1 bb{cT} 2a 58 b1', map='0001 ff 0001 0001 08 0001 0000')
row('stack_before_init', '3 stack', 'm()V', 0, 1, 'bb{cT} 59 b1')

# ---- access
A = ('p/A', classfile('p/A', flags=0x21, fields=[(4, 'f', 'I')], methods=[INIT, has('g()V', 4, 1, 0, 'b1')]))
row('protected_field_of_another', '1 access', 'm(Lp/A;)I', 1, 1, '2a b4{fp/A.f:I} ac', parent='p/A', files=[A])
row('protected_field_of_its_own', 'ok', 'm(LT;)I', 1, 1, '2a b4{fp/A.f:I} ac', parent='p/A', files=[A])
row('protected_method_of_another', '1 access', 'm(Lp/A;)V', 1, 1, '2a b6{mp/A.g()V} b1', parent='p/A', files=[A])
row('protected_method_of_its_own', 'ok', 'm(LT;)V', 1, 1, '2a b6{mT.g()V} b1', parent='p/A', files=[A])
row('access_before_init', '3 access', 'm()V', 0, 1, 'bb{cp/A} b6{mp/A.g()V} b1', parent='p/A', files=[A])

# ---- init
row('begun_and_copied', 'ok', 'm()V', 1, 2, 'bb{cT} 59 4b b7{mT.<init>()V} 2a b6{mT.g()V} b1', more=[has('g()V', 1, 1, 0, 'b1')])
row('moved_only', 'ok', 'm()V', 1, 2, 'bb{cT} 4b 2a 59 58 b1')
row('called_before_init', '3 init', 'm()V', 0, 1, 'bb{cT} b6{mT.g()V} b1', more=[has('g()V', 1, 1, 0, 'b1')])
row('ifnull_before_init', '3 init', 'm()V', 0, 1, 'bb{cT} c6 0003 b1', map='0001 06')
row('compared_before_init', '4 init', 'm()V', 0, 2, 'bb{cT} 01 a5 0003 b1', map='0001 07')
row('monitor_before_init', '3 init', 'm()V', 0, 1, 'bb{cT} c2 b1')
row('cast_before_init', '3 init', 'm()V', 0, 1, 'bb{cT} c0{cT} 57 b1')
row('stored_before_init', '6 init', 'm([L%s;)V' % O, 1, 3, '2a 03 bb{cT} 00 53 b1')
row('returned_before_init', '3 init', 'm()LT;', 0, 1, 'bb{cT} b0')
row('passed_before_init', '3 init', 'm()V', 0, 1, 'bb{cT} b8{mT.f(LT;)V} b1', more=[has('f(LT;)V', 9, 1, 0, 'b1')])
row('thrown_before_init', '3 init', 'm()V', 0, 1, 'bb{c%s} bf' % T)
row('begun_twice', '7 init', 'm()V', 0, 2, 'bb{cT} 59 b7{mT.<init>()V} b7{mT.<init>()V} b1')
row('null_is_begun', '1 init', 'm()V', 0, 1, '01 b7{mT.<init>()V} b1')
row('begun_by_another_class', '3 init', 'm()V', 0, 1, 'bb{cT} b7{m%s.<init>()V} b1' % O)
row('this_by_a_far_superclass', '1 init', '<init>()V', 1, 1, '2a b7{m%s.<init>()V} b1' % O, flags=1, parent='p/A', files=[A], bare=True)
row('this_is_not_begun', '0 init', '<init>()V', 1, 1, 'b1', flags=1, bare=True)
row('this_leaves', '1 init', '<init>()V', 1, 1, '2a b3{fT.t:LT;} 2a b7{m%s.<init>()V} b1' % O, flags=1, fields=[(9, 't', 'LT;')], bare=True)
row('this_by_its_own', 'ok', '<init>(I)V', 2, 1, '2a b7{mT.<init>()V} b1', flags=1)
row('own_field_before_init', 'ok', '<init>(I)V', 2, 2, '2a 1b b5{fT.f:I} 2a b7{m%s.<init>()V} b1' % O, flags=1, fields=[(1, 'f', 'I')])
row('own_field_read_before_init', '1 init', '<init>(I)V', 2, 2, '2a b4{fT.f:I} 57 2a b7{m%s.<init>()V} b1' % O, flags=1, fields=[(1, 'f', 'I')])
row('superclass_s_field_before_init', '2 init', '<init>(I)V', 2, 2, '2a 1b b5{fT.f:I} 2a b7{mp/A.<init>()V} b1', flags=1, parent='p/A', files=[A])
THIS = '0001 ff 0001 0001 06 0000'
row('dead_return_with_the_flag', 'ok', 'f()V', 1, 0, 'b1 b1', map=THIS)
row('dead_ireturn_with_the_flag', 'ok', 'f()I', 1, 1, '03 ac 03 ac', map='0001 ff 0002 0001 06 0000')
row('dead_return_with_the_flag_of_an_instance', 'ok', 'f()V', 1, 0, 'b1 b1', map=THIS, flags=1)
row('dead_return_with_the_flag_of_init', '5 init', '<init>()V', 1, 1, '2a b7{m%s.<init>()V} b1 b1' % O, map='0001 ff 0005 0001 06 0000', flags=1, bare=True)
row('handler_behind_a_return_with_the_flag', '1 handler', 'f()V', 1, 1, 'b1 b1 57 b1', handlers=[(1, 2, 2, None)], map='0002 ff 0001 0001 06 0000 ff 0000 0001 01 0001 07{c%s}' % T)
row('stack_behind_a_return_with_the_flag', '2 stack', 'f()V', 1, 1, 'b1 b1 57 b1', map='0002 ff 0001 0001 06 0000 fb 0000')

# ---- target
row('no_frame_at_the_target', '1 target', 'm()V', 0, 1, '03 99 0003 b1')
row('frame_at_the_target', 'ok', 'm()V', 0, 1, '03 99 0003 b1', map='0001 04')
row('target_within', '1 target', 'm()V', 0, 1, '03 99 0004 10 00 57 b1')
row('target_before_the_code', '1 target', 'm()V', 0, 1, '03 99 8000 b1')
row('target_takes_more', '1 target', 'm()V', 0, 1, '03 99 0003 b1', map='0001 44 01')
row('goto_w', 'ok', 'm()V', 0, 1, 'c8 00000005 b1', map='0001 05')
row('a_case_without_a_frame', '1 target', 'm()V', 0, 1, '03 aa 0000 00000013 00000000 00000000 00000014 b1 b1', map='0001 14')
row('cases_with_frames', 'ok', 'm()V', 0, 1, '03 aa 0000 00000013 00000000 00000000 00000014 b1 b1', map='0002 14 00')
row('crossed_loops', 'ok', 'm(I)V', 1, 1, '1a 99 0006 00 00 00 1a 9a fffc b1', map='0002 04 02')
row('uninitialized_backwards', 'ok', 'm(I)V', 2, 2, 'bb{cT} 1a 9a ffff 57 b1', map='0001 43 08 0000')
row('init_before_target', '3 init', 'm()V', 0, 1, 'bb{cT} c6 0003 b1')

# ---- handler
row('no_frame_at_the_handler', '0 handler', 'm()V', 0, 1, '00 b1', handlers=[(0, 1, 1, None)], map='0000')
row('handler_takes_other_locals', '0 handler', 'm()V', 1, 1, '03 3b b1 57 b1', handlers=[(0, 2, 3, None)], map='0001 ff 0003 0001 01 0001 07{c%s}' % T)
row('handler_takes_the_locals', 'ok', 'm(I)V', 1, 1, '03 3b b1 57 b1', handlers=[(0, 2, 3, None)], map='0001 ff 0003 0001 01 0001 07{c%s}' % T)
row('caught_is_no_throwable', '0 handler', 'm()V', 0, 1, '00 b1 57 b1', handlers=[(0, 1, 2, S)], map='0001 42 07{c%s}' % S)
row('caught_is_an_array', '0 handler', 'm()V', 0, 1, '00 b1 57 b1', handlers=[(0, 1, 2, '[L%s;' % T)], map='0001 42 07{c%s}' % O)
row('handler_takes_an_object', 'ok', 'm()V', 0, 1, '00 b1 57 b1', handlers=[(0, 1, 2, 'java/lang/Error')], map='0001 42 07{c%s}' % O)
row('handler_takes_a_subclass', '0 handler', 'm()V', 0, 1, '00 b1 57 b1', handlers=[(0, 1, 2, T)], map='0001 42 07{cjava/lang/Error}')
row('second_handler', '0 handler', 'm()V', 0, 1, '00 b1 57 b1', handlers=[(0, 1, 2, T), (0, 1, 1, T)], map='0001 42 07{c%s}' % T)
row('handler_of_this', '0 handler', '<init>()V', 1, 1, '2a b7{m%s.<init>()V} b1 57 b1' % O, handlers=[(0, 4, 5, None)], map='0001 ff 0005 0001 00 0001 07{c%s}' % T, flags=1, bare=True)
row('handler_of_this_with_the_flag', '4 handler', '<init>()V', 1, 1, '2a b7{m%s.<init>()V} b1 bf' % O, handlers=[(0, 5, 5, None)], map='0001 ff 0005 0001 06 0001 07{c%s}' % T, flags=1, bare=True)
row('handler_of_this_that_throws', 'ok', '<init>()V', 1, 1, '2a b7{m%s.<init>()V} b1 bf' % O, handlers=[(0, 4, 5, None)], map='0001 ff 0005 0001 06 0001 07{c%s}' % T, flags=1, bare=True)

# ---- classes of javac, by the name of their main class
def compiled(folder):
    for main in sorted(os.listdir(folder)):
        if os.path.isdir(os.path.join(folder, main)):
            files = []
            for name in sorted(os.listdir(os.path.join(folder, main))):
                if name.endswith('.class'): files.append((name[:-6], open(os.path.join(folder, main, name), 'rb').read()))
            ROWS.append(('javac_' + main, 'ok', main, files))

def hotspot():
    for title, wants, name, files in ROWS:
        with tempfile.TemporaryDirectory() as folder:
            for n, data in files:
                path = os.path.join(folder, n + '.class'); os.makedirs(os.path.dirname(path), exist_ok=True); open(path, 'wb').write(data)
            p = subprocess.run(['java', '-Xverify:all', '-cp', folder, 'T' if not title.startswith('javac') else name], capture_output=True, text=True)
            said = p.stdout + p.stderr
            first = [l.strip() for l in said.splitlines() if 'Error' in l and 'warning' not in l]
            where = re.search(r'@(\d+)', said)
            print(f'{title:32} {wants:12} {"ok" if p.returncode == 0 else (where.group(1) if where else "?"):6} {first[0][:110] if first else ""}')

def written():
    tables = os.path.join(os.path.dirname(os.path.abspath(__file__)), '../../tables')
    with open(os.path.join(tables, 'rules.verified'), 'w') as given, open(os.path.join(tables, 'rules.wanted'), 'w') as wanted:
        for title, wants, name, files in ROWS:
            main = name if title.startswith('javac') else 'T'
            given.write(' '.join([title, main] + [data.hex() for n, data in files]) + '\n')
            if wants == 'ok': wanted.write(f'{title}: verified\n')
            else: place, rule = wants.split(); wanted.write(f'{title}: T.{name} pc={place} rule={rule}\n')

compiled(sys.argv[1])
if sys.argv[2:] == ['hotspot']: hotspot()
else: written()
