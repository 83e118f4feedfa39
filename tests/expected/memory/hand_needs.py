"""Needs of words by hand: a title, methods of class M beside main, as instructions, what main does, bounds, lengths, and what has to be said."""
from assembler import Hand, add

DO = 'invokestatic method M f (I)V'
BIG = 'h: ldc 2147483647; newarray 11; pop; iload_0; ifne h; return'
BIG_LINE = 'M.big(I)V 0 loop<=2147483647'
BIG_CALL = 'iload_0; invokestatic method M big (I)V'
NESTED = 'h: %s; i: %s; iload_0; ifne i; iload_0; ifne h; return' % ('nop', BIG_CALL)
NEW = 'new class java/lang/Object; pop'
TURNS = 'bipush 10; istore_0; h: iload_0; ifle e; %s; iinc 0 -1; goto h; e: return' % NEW
# Methods (name, descriptor, text, handlers), bounds, lengths, and what stands behind `image=I`, or the whole line that refuses.
ROWS = [
    ('main alone', [], '', [], [], 'stack=12 heap=2'),
    ('an object', [], NEW, [], [], 'heap=3'),
    ('an object per turn', [('f', '(I)V', TURNS)], 'iconst_1; ' + DO, ['M.f(I)V 3 loop<=10'], [], 'heap=13'),
    ('an object per turn of a loop of bound 0', [('f', '(I)V', TURNS)], 'iconst_1; ' + DO, ['M.f(I)V 3 loop<=0'], [], 'heap=3'),
    ('an object per turn, without a line', [('f', '(I)V', TURNS)], 'iconst_1; ' + DO, [], [], 'memory: missing bound M.f(I)V 3'),
    ('an object in front of the test', [('f', '(I)V', 'h: %s; iload_0; ifne h; return' % NEW)], 'iconst_1; ' + DO, ['M.f(I)V 0 loop<=10'], [], 'heap=13'),
    ('a loop without objects', [('f', '(I)V', 'h: iinc 0 -1; iload_0; ifne h; %s; return' % NEW)], 'iconst_1; ' + DO, [], [], 'heap=3'),
    ('an array of a parameter', [('f', '(I)V', 'iload_0; newarray 10; pop; return')], 'iconst_1; ' + DO, [], [], 'memory: missing size M.f(I)V 1'),
    ('an array of a parameter, with a length', [('f', '(I)V', 'iload_0; newarray 10; pop; return')], 'iconst_1; ' + DO, [], ['M.f(I)V 1 length<=7'], 'heap=11'),
    ('an array of length 0', [('f', '(I)V', 'iload_0; newarray 10; pop; return')], 'iconst_1; ' + DO, [], ['M.f(I)V 1 length<=0'], 'heap=4'),
    ('an array of longs', [('f', '(I)V', 'iload_0; newarray 11; pop; return')], 'iconst_1; ' + DO, [], ['M.f(I)V 1 length<=7'], 'heap=18'),
    ('an array of references', [('f', '(I)V', 'iload_0; anewarray class java/lang/Object; pop; return')], 'iconst_1; ' + DO, [], ['M.f(I)V 1 length<=7'], 'heap=11'),
    ('a constant length', [], 'bipush 100; newarray 10; pop', [], [], 'heap=104'),
    ('a constant length of ldc', [], 'ldc 100000; newarray 8; pop', [], [], 'heap=100004'),
    ('a constant before a line', [], 'iconst_5; newarray 10; pop', [], ['M.main([Ljava/lang/String;)V 1 length<=9'], 'heap=9'),
    ('a line of another place', [], 'iconst_5; newarray 10; pop', [], ['M.main([Ljava/lang/String;)V 0 length<=9', 'Other.f()V 3 length<=4'], 'heap=9'),
    ('a length of -1', [], 'iconst_m1; newarray 10; pop', [], [], 'heap=2'),
    ('a length of the least int', [], 'ldc -2147483648; newarray 11; pop', [], [], 'heap=2'),
    ('a branch to the array behind a constant', [('f', '(I)V', 'iload_0; goto a; iconst_3; a: newarray 10; pop; return')], 'iconst_1; ' + DO, [], [],
     'memory: missing size M.f(I)V 5'),
    ('the same with a length', [('f', '(I)V', 'iload_0; goto a; iconst_3; a: newarray 10; pop; return')], 'iconst_1; ' + DO, [], ['M.f(I)V 5 length<=3'], 'heap=7'),
    ('a branch to the constant', [('f', '(I)V', 'iload_0; ifne a; a: iconst_3; newarray 10; pop; return')], 'iconst_1; ' + DO, [], [], 'heap=7'),
    ('a dead branch to the array', [('f', '(I)V', 'iconst_3; a: newarray 10; pop; return; iload_0; goto a')], 'iconst_1; ' + DO, [], [], 'memory: missing size M.f(I)V 1'),
    ('a constant and an instruction between', [('f', '(I)V', 'iconst_3; nop; newarray 10; pop; return')], 'iconst_1; ' + DO, [], [], 'memory: missing size M.f(I)V 2'),
    ('a constant from a field', [('f', '(I)V', 'getstatic field M fixed I; newarray 10; pop; return')], 'iconst_1; ' + DO, [], [], 'memory: missing size M.f(I)V 3'),
    ('an array in dead code', [('f', '(I)V', 'return; iload_0; newarray 10; pop; return')], 'iconst_1; ' + DO, [], [], 'heap=2'),
    ('a dead call of what makes one', [('f', '(I)V', 'return; iconst_1; invokestatic method M g (I)V; return'), ('g', '(I)V', 'iload_0; newarray 10; pop; return')],
     'iconst_1; ' + DO, [], [], 'memory: missing size M.g(I)V 1'),
    ('a method that nothing calls', [('f', '(I)V', 'iload_0; newarray 10; pop; return')], '', [], [], 'heap=2'),
    ('one of two ways', [('f', '(I)V', 'iload_0; ifne a; iconst_5; newarray 10; pop; return; a: bipush 6; newarray 10; pop; return')], 'iconst_1; ' + DO, [], [], 'heap=10'),
    ('a walk that stops in the midst', [('f', '(I)V', 'h: bipush 50; newarray 10; pop; iload_0; ifeq h; return')], 'iconst_1; ' + DO, ['M.f(I)V 0 loop<=2'], [], 'heap=158'),
    ('two loops, one behind the other', [('f', '(I)V', 'h: %s; iload_0; ifeq h; i: %s; iload_0; ifne i; return' % (NEW, NEW))], 'iconst_1; ' + DO,
     ['M.f(I)V 0 loop<=3', 'M.f(I)V 8 loop<=5'], [], 'heap=12'),
    ('two loops within one another', [('f', '(I)V', 'h: %s; i: %s; iload_0; ifne i; iload_0; ifne h; return' % (NEW, NEW))], 'iconst_1; ' + DO,
     ['M.f(I)V 0 loop<=3', 'M.f(I)V 4 loop<=5'], [], 'heap=30'),
    ('an object by a call in a loop', [('f', '(I)V', 'h: iload_0; invokestatic method M g (I)V; iload_0; ifne h; return'), ('g', '(I)V', NEW + '; return')], 'iconst_1; ' + DO,
     ['M.f(I)V 0 loop<=4'], [], 'heap=7'),
    ('the first missing bound of the least method', [('f', '(I)V', 'iload_0; newarray 10; pop; iload_0; invokestatic method M g (I)V; return'), ('g', '(I)V', TURNS)], 'iconst_1; ' + DO, [], [],
     'memory: missing bound M.g(I)V 3'),
    ('a call of itself', [('f', '(I)V', 'iload_0; %s; return' % DO)], 'iconst_1; ' + DO, [], [], 'memory: recursion M.f(I)V'),
    ('a loop with two entries', [('f', '(I)V', 'iload_0; ifeq m; h: nop; m: iload_0; ifne h; return')], 'iconst_1; ' + DO, [], [], 'memory: irreducible M.f(I)V 4 5'),
    ('a bad length', [], '', [], ['M.f(I)V 1 length<7'], 'bad sizes line=1'),
    ('a length past the greatest', [], '', [], ['', '# M', 'M.f(I)V 1 length<=2147483648'], 'bad sizes line=3'),
    ('the greatest place', [], '', [], ['M.f(I)V 4294967295 length<=2147483647'], 'heap=2'),
    ('a place past the greatest', [], '', [], ['M.f(I)V 4294967296 length<=1'], 'bad sizes line=1'),
    ('a length twice', [], '', [], ['M.f(I)V 1 length<=7', 'M.f(I)V 1 length<=7'], 'twice size line=2'),
    ('a bad bound before a bad length', [], '', ['x'], ['x'], 'bad bounds line=1'),
    ('2^63 words', [('big', '(I)V', BIG), ('f', '(I)V', BIG_CALL + '; return')], 'iconst_1; ' + DO, [BIG_LINE], [], 'heap=%d' % (2**63 + 2)),
    ('2^63 words in each of two loops of bound 0', [('big', '(I)V', BIG), ('f', '(I)V', NESTED)], 'iconst_1; ' + DO, [BIG_LINE, 'M.f(I)V 0 loop<=0', 'M.f(I)V 1 loop<=0'], [],
     'heap=%d' % (2**63 + 2)),
    ('2^64 words', [('big', '(I)V', BIG), ('f', '(I)V', BIG_CALL + '; ' + BIG_CALL + '; return')], 'iconst_1; ' + DO, [BIG_LINE], [], 'memory: too large M.f(I)V'),
    ('2^64 words with the argument of main', [('big', '(I)V', BIG), ('f', '(I)V', '%s; ldc 2147483645; newarray 11; pop; %s; %s; return' % (BIG_CALL, NEW, NEW))],
     'iconst_1; ' + DO, ['M.big(I)V 0 loop<=4294967294'], [], 'memory: too large jop/Boot.boot()V'),
    ('one word less than 2^64, with it', [('big', '(I)V', BIG), ('f', '(I)V', BIG_CALL + '; ldc 2147483645; newarray 11; pop; new class java/lang/Object; pop; return')],
     'iconst_1; ' + DO, ['M.big(I)V 0 loop<=4294967294'], [], 'heap=%d' % (2**64 - 1)),
]


def program(methods, main):
    """the class files of a row"""
    k = Hand('M')
    k.constant(25, 'fixed', 6)
    for name, descriptor, text in methods:
        add(k, name, descriptor, text, local=1, stack=2)
    text = main + '; return' if main else 'return'
    add(k, 'main', '([Ljava/lang/String;)V', text, local=1, stack=2 if main else 0)
    return [k.data()]
