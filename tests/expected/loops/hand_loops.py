"""Loops by hand, as instructions: a name, the text, handlers, and the bounds of the loops in the order of their headers, none where a loop doesn't count."""
from assembler import Hand, add

LOCALS = '(IIIJ)V'  # ints in 0, 1 and 2, a long in 3 and 4
UP = 'iconst_0; istore_0; h: iload_0; bipush 10; if_icmpge e; iinc 0 1; goto h; e: return'
# Each with what it shows.
LOOPS = [
    ('test in front', UP, [], [10]),
    ('test at the end', 'iconst_0; istore_0; h: iinc 0 1; iload_0; bipush 10; if_icmplt h; return', [], [9]),
    ('a jump to the test', 'iconst_0; istore_0; goto t; h: iinc 0 1; t: iload_0; bipush 10; if_icmplt h; return', [], [10]),
    ('a jump to the limit', 'iconst_0; istore_0; h: iload_0; goto t; t: bipush 10; if_icmpge e; iinc 0 1; goto h; e: return', [], [None]),
    ('the limit in front', 'iconst_0; istore_0; h: bipush 10; iload_0; if_icmple e; iinc 0 1; goto h; e: return', [], [None]),
    ('a comparison with 0', 'bipush 10; istore_0; h: iload_0; ifle e; iinc 0 -1; goto h; e: return', [], [10]),
    ('a limit of 0 that is pushed', 'bipush 10; istore_0; h: iload_0; iconst_0; if_icmple e; iinc 0 -1; goto h; e: return', [], [10]),
    ('wide forms', 'iconst_0; !istore 0; h: !iload 0; sipush 1000; if_icmpge e; !iinc 0 300; goto_w h; e: return', [], [4]),
    ('a wide step down', 'sipush 1000; istore_0; h: iload_0; ifle e; !iinc 0 -300; goto h; e: return', [], [4]),
    ('a step of 0', 'iconst_0; istore_0; h: iload_0; bipush 10; if_icmpge e; iinc 0 0; goto h; e: return', [], [None]),
    ('a limit of ldc', 'iconst_0; istore_0; h: iload_0; ldc 70000; if_icmpge e; iinc 0 1; goto h; e: return', [], [70000]),
    ('a start of ldc_w', 'ldc_w -70000; istore_0; h: iload_0; ifge e; iinc 0 1; goto h; e: return', [], [70000]),
    ('both ways lead on', 'iconst_0; istore_0; h: iload_0; bipush 10; if_icmpge t; t: iinc 0 1; goto h', [], [None]),
    ('both ways lead out', 'iconst_0; istore_0; h: iinc 0 1; iload_1; ifne h; iload_0; bipush 10; if_icmpge e; return; e: return', [], [None]),
    ('an odd step to an even limit', 'iconst_1; istore_0; h: iload_0; bipush 10; if_icmpeq e; iinc 0 2; goto h; e: return', [], [None]),
    ('an odd step to an odd limit', 'iconst_1; istore_0; h: iload_0; bipush 11; if_icmpeq e; iinc 0 2; goto h; e: return', [], [5]),
    ('!= that leads out', 'iconst_4; istore_0; h: iload_0; iconst_4; if_icmpne e; iinc 0 1; goto h; e: return', [], [1]),
    ('the first value leads out', 'iconst_5; istore_0; h: iload_0; iconst_5; if_icmpge e; iinc 0 1; goto h; e: return', [], [0]),
    ('past the greatest int', 'ldc 2147483647; istore_0; h: iinc 0 1; iload_0; ifgt h; return', [], [None]),
    ('down past the least int', 'ldc -2147483648; istore_0; h: iinc 0 -1; iload_0; iflt h; return', [], [None]),
    ('all ints but one', 'ldc -2147483648; istore_0; h: iload_0; ldc 2147483647; if_icmpeq e; iinc 0 1; goto h; e: return', [], [4294967295]),
    ('a second step', 'iconst_0; istore_0; h: iload_0; bipush 10; if_icmpge e; iinc 0 1; iinc 0 1; goto h; e: return', [], [None]),
    ('a store in the loop', 'iconst_0; istore_0; h: iload_0; bipush 10; if_icmpge e; iload_1; istore_0; iinc 0 1; goto h; e: return', [], [None]),
    ('a long store over the next local', 'iconst_0; istore_0; h: iload_0; bipush 10; if_icmpge e; lconst_0; lstore_1; iconst_0; istore_1; iconst_0; istore_2; iinc 0 1; goto h; e: return',
     [], [10]),
    ('a long store over it and the next', 'iconst_0; istore_1; h: iload_1; bipush 10; if_icmpge e; iload_1; lconst_0; lstore_1; istore_1; iconst_0; istore_2; iinc 1 1; goto h; '
     'e: return', [], [None]),
    ('a long store over the one before and it', 'iconst_0; istore_1; h: iload_1; bipush 10; if_icmpge e; iload_1; lconst_0; lstore_0; istore_1; iconst_0; istore_0; iinc 1 1; goto h; '
     'e: return', [], [None]),
    ('a way round the step', 'iconst_0; istore_0; h: iload_0; bipush 10; if_icmpge e; iload_1; ifne h; iinc 0 1; goto h; e: return', [], [None]),
    ('a way round the test', 'iconst_0; istore_0; h: iload_1; ifne s; iload_0; bipush 10; if_icmpge e; s: iinc 0 1; goto h; e: return', [], [None]),
    ('two tests, of which each loop passes one', 'iconst_0; istore_0; h: iload_1; ifne s; iload_0; bipush 10; if_icmpge e; goto t; s: iload_0; bipush 10; if_icmpge e; t: iinc 0 1; goto h; '
     'e: return', [], [None]),
    ('two tests, each on each way', 'iconst_0; istore_0; h: iload_0; bipush 10; if_icmpge e; iload_0; bipush 7; if_icmpgt e; iinc 0 1; goto h; e: return', [], [8]),
    ('a test before and one behind', 'iconst_0; istore_0; h: iload_0; bipush 10; if_icmpge e; iinc 0 1; iload_0; bipush 7; if_icmplt h; e: return', [], [6]),
    ('two steps of two locals', 'iconst_0; istore_0; bipush 20; istore_1; h: iload_0; bipush 10; if_icmpge e; iload_1; ifle e; iinc 0 1; iinc 1 -4; goto h; e: return', [], [5]),
    ('the step on one of two ways to the test', 'iconst_0; istore_0; h: iload_1; ifne t; iinc 0 1; t: iload_0; bipush 10; if_icmplt h; return', [], [None]),
    ('no store before', 'h: iload_0; bipush 10; if_icmpge e; iinc 0 1; goto h; e: return', [], [None]),
    ('a store of no constant', 'iload_1; istore_0; h: iload_0; bipush 10; if_icmpge e; iinc 0 1; goto h; e: return', [], [None]),
    ('a jump to the store', 'iconst_0; goto s; s: istore_0; h: iload_0; bipush 10; if_icmpge e; iinc 0 1; goto h; e: return', [], [None]),
    ('a dead jump to the store', 'iconst_0; s: istore_0; h: iload_0; bipush 10; if_icmpge e; iinc 0 1; goto h; e: return; goto d; d: iconst_0; goto s', [], [None]),
    ('a dead jump to the constant', 's: iconst_0; istore_0; h: iload_0; bipush 10; if_icmpge e; iinc 0 1; goto h; e: return; goto s', [], [10]),
    ('a dead jump to the test', 'iconst_0; istore_0; h: iload_0; bipush 10; t: if_icmpge e; iinc 0 1; goto h; e: return; iconst_0; iconst_1; goto t', [], [None]),
    ('a dead jump to the limit', 'iconst_0; istore_0; h: iload_0; t: bipush 10; if_icmpge e; iinc 0 1; goto h; e: return; iconst_0; goto t', [], [None]),
    ('a dead jump to the load', 'iconst_0; istore_0; goto h; h: nop; t: iload_0; bipush 10; if_icmpge e; iinc 0 1; goto h; e: return; goto t', [], [10]),
    ('a switch to the test', 'iconst_0; istore_0; h: iload_0; switch t 5 t t; t: iload_0; bipush 10; if_icmpge e; iinc 0 1; goto h; e: return', [], [10]),
    ('two entries', 'iconst_0; istore_0; iload_1; ifeq h; nop; h: iload_0; bipush 10; if_icmpge e; iinc 0 1; goto h; e: return', [], [None]),
    ('one entry behind a branch', 'iconst_0; istore_0; iload_1; ifeq e; nop; h: iload_0; bipush 10; if_icmpge e; iinc 0 1; goto h; e: return', [], [10]),
    ('two ways from the store', 'iconst_0; istore_0; iload_1; ifeq n; nop; n: nop; h: iload_0; bipush 10; if_icmpge e; iinc 0 1; goto h; e: return', [], [None]),
    ('a call before', 'iconst_0; istore_0; invokestatic method H f ()V; h: iload_0; bipush 10; if_icmpge e; iinc 0 1; goto h; e: return', [], [10]),
    ('a step before', 'iconst_0; istore_0; iinc 0 1; h: iload_0; bipush 10; if_icmpge e; iinc 0 1; goto h; e: return', [], [None]),
    ('a longer store before', 'iconst_0; istore_1; lconst_0; lstore_0; iconst_0; istore_0; iconst_3; istore_1; h: iload_1; bipush 10; if_icmpge e; iinc 1 1; goto h; e: return',
     [], [7]),
    ('behind the first instruction, where another loop ends', 'o: nop; h: iload_0; bipush 10; if_icmpge e; iinc 0 1; goto h; e: iconst_0; istore_0; goto o', [], [None, None]),
    ('in a loop without a number', 'o: iconst_0; istore_0; h: iload_0; bipush 10; if_icmpge e; iinc 0 1; goto h; e: iload_1; ifne o; return', [], [None, 10]),
    ('the step in an inner loop', 'iconst_0; istore_0; h: iload_0; bipush 10; if_icmpge e; i: iinc 0 1; iload_1; ifne i; goto h; e: return', [], [None, None]),
    ('the test in an inner loop', 'iconst_0; istore_0; h: iinc 0 1; i: iload_0; bipush 10; if_icmpge e; iload_1; ifne i; goto h; e: return', [], [None, None]),
    ('a header that is the first instruction', 'h: iinc 0 1; iload_0; bipush 10; if_icmplt h; return', [], [None]),
    ('a handler in the loop', 'iconst_0; istore_0; h: iload_0; bipush 10; if_icmpge e; a: iload_1; iload_2; idiv; pop; b: iinc 0 1; goto h; c: pop; iinc 0 1; goto h; e: return',
     [('a', 'b', 'c')], [None]),
    ('a handler that joins in front of the step', 'iconst_0; istore_0; h: iload_0; bipush 10; if_icmpge e; a: iload_1; iload_2; idiv; b: pop; iinc 0 1; goto h; c: pop; iconst_0; goto b; '
     'e: return', [('a', 'b', 'c')], [10]),
    ('a handler that goes to the header', 'iconst_0; istore_0; h: iload_0; bipush 10; if_icmpge e; a: iload_1; iload_2; idiv; pop; b: iinc 0 1; goto h; c: pop; goto h; e: return',
     [('a', 'b', 'c')], [None]),
    ('a handler out of the loop', 'iconst_0; istore_0; h: iload_0; bipush 10; if_icmpge e; a: iload_1; iload_2; idiv; pop; b: iinc 0 1; goto h; c: pop; e: return',
     [('a', 'b', 'c')], [10]),
    ('a handler that throws on', 'iconst_0; istore_0; h: iload_0; bipush 10; if_icmpge e; a: iload_1; iload_2; idiv; pop; b: iinc 0 1; goto h; e: return; c: athrow',
     [('a', 'b', 'c')], [10]),
    ('not reducible', 'iconst_0; istore_0; iload_1; ifeq m; h: iload_0; bipush 10; if_icmpge e; m: iinc 0 1; goto h; e: return', [], []),
    ('beside one that is not reducible', 'iconst_0; istore_0; h: iload_0; bipush 10; if_icmpge n; iinc 0 1; goto h; n: iload_1; ifeq m; k: iload_2; ifne e; m: iload_1; goto p; p: pop; goto k; '
     'e: return', [], []),
    ('a field as limit', 'iconst_0; istore_0; h: iload_0; getstatic field H fixed I; if_icmpge e; iinc 0 1; goto h; e: return', [], [6]),
    ('a field without a constant', 'iconst_0; istore_0; h: iload_0; getstatic field H plain I; if_icmpge e; iinc 0 1; goto h; e: return', [], [None]),
    ('a field that is not final', 'iconst_0; istore_0; h: iload_0; getstatic field H open I; if_icmpge e; iinc 0 1; goto h; e: return', [], [None]),
    ('a field that dead code writes', 'iconst_0; istore_0; h: iload_0; getstatic field H dead I; if_icmpge e; iinc 0 1; goto h; e: return', [], [None]),
    ('a field by the name of a class below', 'iconst_0; istore_0; h: iload_0; getstatic field B fixed I; if_icmpge e; iinc 0 1; goto h; e: return', [], [6]),
    ('a field that is written by the name of a class below', 'iconst_0; istore_0; h: iload_0; getstatic field H below I; if_icmpge e; iinc 0 1; goto h; e: return', [], [None]),
    ('a start by a field', 'getstatic field H fixed I; istore_0; h: iload_0; bipush 10; if_icmpge e; iinc 0 1; goto h; e: return', [], [None]),
]
FIELDS = [('fixed', 24, 6), ('plain', 24, None), ('open', 8, 6), ('dead', 24, 6), ('below', 24, 6)]


def hand():
    """class H with a method for each, l0, l1, .., and class B below it"""
    k = Hand('H')
    for name, flags, value in FIELDS:
        k.constant(9 | flags, name, value)
    for number, (_, text, handlers, _) in enumerate(LOOPS):
        add(k, 'l%d' % number, LOCALS, text, handlers)
    add(k, 'f', '()V', 'return')
    add(k, '#g', LOCALS, UP)
    add(k, 'g g', LOCALS, UP)
    add(k, '<clinit>', '()V', 'return; iconst_1; putstatic field H dead I; iconst_1; putstatic field B below I; return')
    k.main()
    below = Hand('B')
    below.above = below.cls('H')
    return [k.data(), below.data()]
