"""Rows of certificates by hand: of each condition some that keep it and some that break it."""
import os
import sys

HERE = os.path.dirname(os.path.abspath(__file__))
sys.path[:0] = [HERE, os.path.join(HERE, '../graphs'), os.path.join(HERE, '../../harness')]
import programs  # noqa: E402
from certificate import Maker  # noqa: E402
from costs import Timing  # noqa: E402
from study import MOST, Study, read_bounds  # noqa: E402
from tables import MAIN, greatest_load, number  # noqa: E402

# Loops of 3 turns around two of 2 turns each, in programs.two_regions. A turn of an inner loop takes 1 + 4 + 93 + 53 + 8 + 4 = 163, its last one 5, its entry the loads 772 + 1540;
# the greatest last turn of the outer one raises at the second call.
TWO_LINES = ['A.p()V 5 loop<=3', 'A.p()V 11 loop<=2', 'A.p()V 26 loop<=2']
ENTRY = 772 + 1540 + 2 * 163
TWO_REGIONS = 128 + (93 + 53 + 1540 + 772) + 2 + 3 * (5 + 2 + ENTRY + 5 + 2 + ENTRY + 5 + 12) + (5 + 2 + ENTRY + 5 + 2 + ENTRY + 5 + 93 + 53 + 103) + 772 + 1540
assert TWO_REGIONS == 26365


def returning(table):
    """a method of one return: 53 cycles, and 7 for its load; before it the dearest invoke, 128; behind it the greatest load"""
    data = programs.worked()
    table.program('worked', 'A', [data])
    e, names = number(table, 'A.e()V'), table.known.names
    bound = 128 + 53 + 7 + greatest_load(table)
    for version in (1, 2):
        text = 'JOPC %d\nroot %d\nsection inside %d\nnode 0 53\nbound %d\n' % (version, e, e, bound)
        assert text == Maker(Study(table.known, Timing(), {}), version).made(e).text()
        table.check('a return', Timing(), [], text, 'holds A.e()V %d' % bound)
        table.put('its node lowered', 'node 0 53', 'node 0 52', 'check: exit A.e()V 0')
        table.put('its bound lowered', 'bound %d' % bound, 'bound %d' % (bound - 1), 'check: region A.e()V')
        table.put('its bound raised', 'bound %d' % bound, 'bound %d' % (bound + 1), 'check: region A.e()V')
        table.put('never', 'bound %d' % bound, 'bound never', 'check: region A.e()V')
        table.put('its node raised', 'node 0 53', 'node 0 54', 'check: region A.e()V')
        table.change('both raised', ['4=node 0 54', '5=bound %d' % (bound + 1)], 'holds A.e()V %d' % (bound + 1))
        table.put('version 3', 'JOPC %d' % version, 'JOPC 3', 'bad cert line=1')
        table.without('without its node', ['node 0 53'], 'check: exit A.e()V 0')
        table.without('without its section line', ['section inside %d' % e], 'bad cert line=3')
        table.without('without its section', ['section inside %d' % e, 'node 0 53'], 'check: missing A.e()V')
        table.put('another kind', 'section inside %d' % e, 'section alone %d' % e, 'check: missing A.e()V')
        table.put('of loops', 'section inside %d' % e, 'section loops %d' % e, 'bad cert line=3' if version == 1 else 'check: missing A.e()V')
        table.put('another method', 'section inside %d' % e, 'section inside %d' % (e + 1), 'check: edge A.g()V 0 0')
        table.put('another root', 'root %d' % e, 'root %d' % (e + 2), 'check: missing A.c()V')
        table.put('a root that is no method', 'root %d' % e, 'root %d' % len(names), 'check: missing #%d' % len(names))
        table.put('a root far off', 'root %d' % e, 'root 4294967295', 'check: missing #4294967295')
        table.put('a section of no method', 'section inside %d' % e, 'section inside %d' % len(names), 'check: missing #%d' % len(names))
        table.put('a raise step that is none', 'node 0 53', 'raise 0 53', 'check: member A.e()V 0r')
        table.change('a raise step more', ['5+raise 0 53'], 'check: member A.e()V 0r')
        table.change('a node more', ['5+node 1 53'], 'check: member A.e()V 1')
        table.change('a loop without bound', ['5+loop 0 0 0'], 'check: member A.e()V 0')
        table.put('the greatest potential', 'node 0 53', 'node 0 %d' % MOST, 'check: region A.e()V')
        table.put('the least potential', 'node 0 53', 'node 0 -%d' % MOST, 'check: exit A.e()V 0')
    table.check('a longer read', Timing(read=63, write=0), [], 'JOPC 2\nroot %d\nsection inside %d\nnode 0 115\nbound %d\n' % (e, e, 500 + 115 + 69 + greatest_load(table, Timing(read=63))),
                'holds A.e()V %d' % (500 + 115 + 69 + greatest_load(table, Timing(read=63))))
    table.check('a loop of no edge', Timing(), ['A.e()V 0 loop<=5'], 'JOPC 1\nroot %d\nsection inside %d\nnode 0 53\nloop 0 2 0\nbound %d\n' % (e, e, bound + 10), 'holds A.e()V %d' % (bound + 10))
    table.change('whose iterations pass 64 bits', ['5=loop 0 %d 0' % MOST], 'check: member A.e()V 0')
    table.change('which is as large as may be', ['5=loop 0 %d 0' % ((MOST - 53) // 5)], 'check: region A.e()V')
    table.change('in a loop with another header', ['5=loop 1 1 0 1'], 'check: member A.e()V 0')
    boot = number(table, 'jop/Boot.boot()V')
    text = Maker(Study(table.known, Timing(), {}), 2).made(boot).text()
    table.check('the method that starts the program', Timing(), [], text)


def looping(table):
    """methods with a loop: one whose loop begins behind two instructions, one whose first instruction is the header, one that never ends"""
    n, l, g = (number(table, 'A.%s' % name) for name in ('n()V', 'l(I)V', 'g()V'))
    load = greatest_load(table)
    # 2 before the loop, then ten turns of 1 + 4 + 8 + 4 = 17, then 1 + 4 and the return of 53; 4 words of code, so a load of 16
    bound = 128 + (2 + 170 + 58) + 16 + load
    text = 'JOPC 1|root %d|section inside %d|node 0 230|node 1 229|node 2 58|node 3 57|node 6 53|node 9 45|node 12 53|loop 2 17 2 3 6 9|bound %d' % (n, n, bound)
    line = ['A.n()V 2 loop<=10']
    table.check('a loop', Timing(), line, text.replace('|', '\n'), 'holds A.n()V %d' % bound)
    table.put('its start lowered', 'node 0 230', 'node 0 229', 'check: edge A.n()V 0 1')
    table.put('before the header lowered', 'node 1 229', 'node 1 228', 'check: edge A.n()V 1 2')
    table.put('the header lowered', 'node 2 58', 'node 2 57', 'check: edge A.n()V 2 3')
    table.put('the header raised', 'node 2 58', 'node 2 59', 'check: edge A.n()V 1 2')
    table.put('in the loop lowered', 'node 6 53', 'node 6 52', 'check: edge A.n()V 6 9')
    table.put('before the back edge lowered', 'node 9 45', 'node 9 44', 'check: edge A.n()V 9 2')
    table.put('the exit lowered', 'node 12 53', 'node 12 52', 'check: exit A.n()V 12')
    table.put('an iteration lowered', 'loop 2 17 2 3 6 9', 'loop 2 16 2 3 6 9', 'check: edge A.n()V 9 2')
    table.put('an iteration raised', 'loop 2 17 2 3 6 9', 'loop 2 18 2 3 6 9', 'check: edge A.n()V 1 2')
    table.without('without the loop', ['loop 2 17 2 3 6 9'], 'check: edge A.n()V 9 2')
    table.without('without the exit', ['node 12 53'], 'check: exit A.n()V 12')
    table.without('without the header', ['node 2 58'], 'check: edge A.n()V 2 3')
    table.without('without a node before it', ['node 1 229'], 'check: edge A.n()V 1 2')
    table.without('without the start', ['node 0 230'], 'check: edge A.n()V 0 1')
    table.put('members without the header', 'loop 2 17 2 3 6 9', 'loop 2 17 3 6 9', 'check: member A.n()V 2')
    table.put('members without one of them', 'loop 2 17 2 3 6 9', 'loop 2 17 2 3 9', 'check: member A.n()V 6')
    table.put('members with one more', 'loop 2 17 2 3 6 9', 'loop 2 17 2 3 6 9 12', None)
    table.put('members with what is no node', 'loop 2 17 2 3 6 9', 'loop 2 17 2 3 6 7 9', 'check: member A.n()V 7')
    table.put('members with a raise step that is none', 'loop 2 17 2 3 6 9', 'loop 2 17 2 3 3r 6 9', 'check: member A.n()V 3r')
    table.put('another header', 'loop 2 17 2 3 6 9', 'loop 3 17 2 3 6 9', 'check: member A.n()V 1')
    table.put('a header that is no node', 'loop 2 17 2 3 6 9', 'loop 4 17 2 3 6 9', 'check: member A.n()V 1')
    table.put('what is no node', 'node 9 45', 'node 8 45', 'check: member A.n()V 8')
    table.put('a region of an inside section', 'loop 2 17 2 3 6 9', 'region 2 17 2 3 6 9', 'bad cert line=11')
    table.check('no line of bounds', Timing(), ['A.n()V 3 loop<=10', 'A.l(I)V 2 loop<=10'], text.replace('|', '\n'), 'check: member A.n()V 2')
    table.check('a lower bound', Timing(), ['A.n()V 2 loop<=9'], text.replace('|', '\n'), 'holds A.n()V %d' % bound)
    table.check('a higher bound', Timing(), ['A.n()V 2 loop<=11'], text.replace('|', '\n'), 'check: edge A.n()V 1 2')
    others = ['A.n()V 2 loop<=10', 'A.n()V 1 loop<=0', 'A.n()V 3 loop<=0', 'A.n()V 6 loop<=0', 'A.n()V 9 loop<=0', 'A.n()V 12 loop<=7']
    table.check('more loops than the graph has', Timing(), others, text.replace('|', '\n'), 'holds A.n()V %d' % bound)
    table.change('a loop within it', ['12+loop 3 5 3 6'], 'holds A.n()V %d' % bound)
    table.change('a loop that crosses it', ['12+loop 6 5 6 9 12'], 'check: member A.n()V 2')
    table.change('a loop around it', ['11+loop 1 5 1 2 3 6 9'], 'holds A.n()V %d' % bound)
    table.change('a loop beside it', ['12+loop 12 0 12'], 'holds A.n()V %d' % bound)
    table.change('a loop with the start in it', ['11+loop 1 5 0 1'], 'check: member A.n()V 0')
    table.change('a loop entered beside its header', ['12+loop 9 5 6 9'], 'check: member A.n()V 3')
    # the first instruction heads the loop: the start pays the iterations
    bound = 128 + (58 + 3 * 17) + 13 + load
    text = 'JOPC 2|root %d|section inside %d|node 0 58|node 1 57|node 4 53|node 7 45|node 10 53|loop 0 17 0 1 4 7|bound %d' % (l, l, bound)
    table.check('a loop from the start on', Timing(), ['A.l(I)V 0 loop<=3'], text.replace('|', '\n'), 'holds A.l(I)V %d' % bound)
    table.put('without its turns', 'bound %d' % bound, 'bound %d' % (bound - 51), 'check: region A.l(I)V')
    table.put('turns past 64 bits', 'loop 0 17 0 1 4 7', 'loop 0 %d 0 1 4 7' % MOST, 'check: member A.l(I)V 0')
    table.put('the start not listed', 'node 0 58', 'node 1 57', 'bad cert line=5')
    # one that never ends: nothing has to be listed
    text = 'JOPC 1|root %d|section inside %d|bound never' % (g, g)
    table.check('never', Timing(), [], text.replace('|', '\n'), 'holds A.g()V never')
    table.put('a number for never', 'bound never', 'bound %d' % (128 + 7 + load), 'check: region A.g()V')
    table.put('the greatest number for never', 'bound never', 'bound %d' % MOST, 'check: region A.g()V')
    table.before('listed without a loop', 'bound never', 'node 0 5', 'check: edge A.g()V 0 0')
    text = 'JOPC 1|root %d|section inside %d|node 0 -5|loop 0 4 0|bound never' % (g, g)
    table.check('never by a number below 0', Timing(), ['A.g()V 0 loop<=1'], text.replace('|', '\n'), 'holds A.g()V never')
    table.change('a number of 0', ['4=node 0 -4', '6=bound %d' % (128 + 7 + load)], 'holds A.g()V %d' % (128 + 7 + load))
    table.change('a lower iteration', ['5=loop 0 3 0'], 'check: edge A.g()V 0 0')


def calling(table):
    """methods that call: one that returns, one that never ends, one in a loop"""
    e, g, c, h = (number(table, 'A.%s()V' % name) for name in 'egch')
    load = greatest_load(table)
    # an invoke of 93 and 53 within it; behind it the return, or the raise step of 103
    bound = 128 + (93 + 53 + 103) + 7 + 7 + load
    text = 'JOPC 1|root %d|section inside %d|node 0 53|section inside %d|node 0 249|raise 0 103|node 3 53|bound %d' % (c, e, c, bound)
    table.check('a call', Timing(), [], text.replace('|', '\n'), 'holds A.c()V %d' % bound)
    table.put('the call lowered', 'node 0 249', 'node 0 248', 'check: edge A.c()V 0 0r')
    table.put('the raise step lowered', 'raise 0 103', 'raise 0 102', 'check: exit A.c()V 0r')
    table.put('the return lowered', 'node 3 53', 'node 3 52', 'check: exit A.c()V 3')
    table.without('without the raise step', ['raise 0 103'], 'check: exit A.c()V 0r')
    table.without('without the return', ['node 3 53'], 'check: exit A.c()V 3')
    table.without('without the called one', ['section inside %d' % e, 'node 0 53'], 'check: missing A.e()V')
    table.put('the called one alone', 'section inside %d' % e, 'section alone %d' % e, 'check: missing A.e()V')
    table.change('the called one behind', ['3-', '3-', '6+section inside %d' % e, '7+node 0 53'], 'check: missing A.e()V')
    table.change('the called one twice', ['5+section inside %d' % e], 'bad cert line=5')
    table.change('the called one in two kinds', ['5+section alone %d' % e, '6+node 0 53'], 'holds A.c()V %d' % bound)
    table.change('the caller absent', ['2=root %d' % number(table, 'A.b()V')], 'check: missing A.b()V')
    table.change('the called one is the root', ['2=root %d' % e, '9=bound %d' % (128 + 60 + load)], 'holds A.e()V %d' % (128 + 60 + load))
    table.change('a fault before a missing one', ['4=node 0 52', '5=section inside %d' % number(table, 'A.b()V')], 'check: exit A.e()V 0')
    table.change('a missing one before a fault', ['4=node 0 53', '5=section inside %d' % number(table, 'A.b()V'), '8=node 2 53'], 'check: missing A.c()V')
    table.change('a called one so large that the call passes 64 bits', ['4=node 0 %d' % (MOST - 92)], 'check: missing A.e()V')
    table.change('a called one as large as may be', ['4=node 0 %d' % (MOST - 93), '6=node 0 %d' % MOST], 'check: edge A.c()V 0 0r')
    table.change('the last line past 64 bits', ['6=node 0 %d' % MOST, '9=bound %d' % MOST], 'check: region A.c()V')
    table.change('another called one', ['4=section inside %d' % g, '3-'], 'check: missing A.e()V')
    table.check('by kinds without loads', Timing(), [], ('JOPC 1|root %d|section inside %d|node 0 53|section alone %d|node 0 263|raise 0 103|node 3 53|bound %d' % (c, e, c, bound)).replace('|', '\n'),
                'check: missing A.c()V')
    table.change('with its loads', ['5=section alone %d' % c, '6=node 0 262'], 'check: edge A.c()V 0 0r')
    # the called one never ends, so that control leaves by the raise step alone
    bound = 128 + (93 + 103) + 7 + 7 + load
    text = 'JOPC 2|root %d|section inside %d|section inside %d|node 0 196|raise 0 103|bound %d' % (h, g, h, bound)
    table.check('a call that never ends', Timing(), [], text.replace('|', '\n'), 'holds A.h()V %d' % bound)
    table.before('with the return behind it', 'bound %d' % bound, 'node 3 53', 'check: member A.h()V 3')
    table.without('without the called one', ['section inside %d' % g], 'check: missing A.g()V')
    table.put('lowered', 'node 0 196', 'node 0 195', 'check: edge A.h()V 0 0r')
    table.check('the called one with a number', Timing(), ['A.g()V 0 loop<=0'],
                ('JOPC 2|root %d|section inside %d|node 0 4|loop 0 4 0|section inside %d|node 0 200|raise 0 103|node 3 53|bound %d' % (h, g, h, bound + 4)).replace('|', '\n'), 'holds A.h()V %d' % (bound + 4))
    table.without('and without the return', ['node 3 53'], 'check: exit A.h()V 3')
    # two calls, where the cache has room for one method
    tight = Timing(blocks=8, block_words=8)
    for version in (1, 2):
        root = number(table, 'A.b()V')
        study = Study(table.known, tight, {('A.k()V', 2): 4})
        table.check('calls in a small cache, version %d' % version, tight, ['A.k()V 2 loop<=4'], Maker(study, version).made(root).text())


def dividing(table):
    """a division under a handler: its raise step leads to the handler, and out of the method"""
    d = number(table, 'A.d(II)I')
    # 1 + 1 + 1200, then a raise step of a table of one entry, 96 + 7 + 58 + 3, then pop, iload_0 and ireturn, 1 + 1 + 53; two words of code
    bound = 128 + (1202 + 164 + 55) + 10 + greatest_load(table)
    text = 'JOPC 1|root %d|section inside %d|node 0 1421|node 1 1420|node 2 1419|raise 2 219|node 3 53|node 4 55|node 5 54|node 6 53|bound %d' % (d, d, bound)
    table.check('a division', Timing(), [], text.replace('|', '\n'), 'holds A.d(II)I %d' % bound)
    table.put('the division lowered', 'node 2 1419', 'node 2 1418', 'check: edge A.d(II)I 2 2r')
    table.put('the raise step lowered', 'raise 2 219', 'raise 2 218', 'check: edge A.d(II)I 2r 4')
    table.put('the handler lowered', 'node 4 55', 'node 4 54', 'check: edge A.d(II)I 4 5')
    table.put('the handler raised', 'node 4 55', 'node 4 56', 'check: edge A.d(II)I 2r 4')
    table.without('without the raise step', ['raise 2 219'], 'check: edge A.d(II)I 2r 4')
    table.without('without the handler', ['node 4 55', 'node 5 54', 'node 6 53'], 'check: exit A.d(II)I 6')
    table.change('the raise step as low as its own cost', ['7=raise 2 164', '9-', '9-'], None)
    table.check('a loop of the raise step and the handler', Timing(), ['A.d(II)I 4 loop<=0'], text.replace('|bound', '|loop 4 0 2r 4 5|bound').replace('|', '\n'), 'check: member A.d(II)I 2')


def with_regions(table):
    """a method of 256 words whose loop calls two of 384; before the loop it calls one of 256: in 16 blocks of 64 words the methods of the loop fit, and all do not"""
    table.program('regions', 'A', [programs.regions()])
    m, c, a, b = (number(table, 'A.%s()V' % name) for name in 'mcab')
    fee = 772 + 1156 + 1156
    assert fee == 3084
    # the call before the loop: 93, and 53 with a load of 772, and 772 for coming back; two instructions; the fee, ten turns; the last turn, which raises at the second call
    turn, last, outside = 1 + 4 + 2 * (93 + 53) + 8 + 4, 1 + 4 + 2 * (93 + 53) + 103, 93 + 53 + 772 + 772
    bound = 128 + (outside + 2 + fee + 10 * turn + last) + 772 + 1156
    assert bound == 10322
    front = 'JOPC 2|root %d|section inside %d|node 0 53|section inside %d|node 0 53|section inside %d|node 0 53|section loops %d|' % (m, a, b, c, m)
    nodes = 'node 0 8266|raise 0 103|node 3 6576|node 4 6575|node 5 400|node 6 399|node 9 395|raise 9 103|node 12 249|raise 12 103|node 15 103|node 18 95|node 21 53|'
    text = (front + nodes + 'region 5 309 5 6 9 12 15 18|bound %d' % bound).replace('|', '\n')
    line = ['A.m()V 5 loop<=10']
    table.check('a region', Timing(), line, text, 'holds A.m()V 10322')
    table.change('without the fee', ['10=node 0 %d' % (8266 - fee), '12=node 3 %d' % (6576 - fee), '13=node 4 %d' % (6575 - fee)], 'check: edge A.m()V 4 5')
    table.put('a cycle less at its entry', 'node 4 6575', 'node 4 6574', 'check: edge A.m()V 4 5')
    table.put('no region', 'region 5 309 5 6 9 12 15 18', 'loop 5 309 5 6 9 12 15 18', 'check: edge A.m()V 9 9r')
    table.put('a region without a call', 'region 5 309 5 6 9 12 15 18', 'region 5 309 5 6', None)
    table.put('in version 1', 'JOPC 2', 'JOPC 1', 'bad cert line=9')
    table.put('in a section of another kind', 'section loops %d' % m, 'section alone %d' % m, 'bad cert line=23')
    table.put('a region with the raise steps', 'region 5 309 5 6 9 12 15 18', 'region 5 309 5 6 9 9r 12 12r 15 18', 'holds A.m()V 10322')
    table.put('a called one alone', 'section inside %d' % a, 'section alone %d' % a, 'check: missing A.a()V')
    table.without('without a called one', ['section inside %d' % b], None)
    both = line + ['A.m()V 6 loop<=0', 'A.m()V 0 loop<=1']
    table.check('two lines more', Timing(), both, text, 'holds A.m()V 10322')
    table.change('a region in a region', ['24+region 6 0 6 9 12 15 18'], 'check: member A.m()V 6')
    table.change('a loop in a region', ['24+loop 6 0 6 9 12 15 18'], 'holds A.m()V 10322')
    table.change('a region in a loop', ['23+loop 0 0 0 3 4 5 6 9 12 15 18', '24+region 5 309 5 6 9 12 15 18', '25-'], None)
    table.change('a region that has too many methods', ['23=region 0 309 0 3 4 5 6 9 12 15 18'], 'check: member A.m()V 0')
    table.check('in fewer blocks', Timing(blocks=15), line, text, 'check: member A.m()V 5')
    table.check('in more blocks', Timing(blocks=19), line, text, 'holds A.m()V 10322')
    table.check('in so many blocks that all fit', Timing(blocks=20), line, text, 'check: missing A.m()V')
    # all turns pay both loads, and two for coming back
    turns = 2 * (1156 + 772)
    assert turns == 3856
    alone = outside + 2 + 10 * (turn + turns) + last + turns
    study = Study(table.known, Timing(), {('A.m()V', 5): 10})
    text = Maker(study, 1).made(m).text()
    table.check('without regions', Timing(), line, text, 'holds A.m()V %d' % (128 + alone + 772 + 1156))
    table.put('a cycle less in a turn', 'loop 5 %d 5 6 9 12 15 18' % (turn + turns), 'loop 5 %d 5 6 9 12 15 18' % (turn + turns - 1), 'check: edge A.m()V 18 5')
    table.put('an inside section of it', 'section alone %d' % m, 'section inside %d' % m, 'check: missing A.m()V')
    table.put('in version 2', 'JOPC 1', 'JOPC 2', 'holds A.m()V %d' % (128 + alone + 772 + 1156))
    table.change('as loops in version 2', ['1=JOPC 2', '9=section loops %d' % m], 'holds A.m()V %d' % (128 + alone + 772 + 1156))
    main = number(table, 'A' + MAIN)
    study = Study(table.known, Timing(), {('A.m()V', 5): 10})
    table.check('its caller', Timing(), line, Maker(study, 2).made(main).text())
    # one block too many
    table.program('regions_too_large', 'A', [programs.regions(385)])
    table.check('a region one block too large', Timing(), line, (front + nodes + 'region 5 309 5 6 9 12 15 18|bound %d' % bound).replace('|', '\n'), 'check: member A.m()V 5')
    table.change('as a loop', ['23=loop 5 309 5 6 9 12 15 18'], None)
    study = Study(table.known, Timing(), {('A.m()V', 5): 10})
    table.check('without a region', Timing(), line, Maker(study, 2).made(m).text())


def with_two_regions(table):
    """two regions in a loop whose methods don't fit together; one of them calls what is also called outside"""
    table.program('two_regions', 'A', [programs.two_regions()])
    p = number(table, 'A.p()V')
    study = Study(table.known, Timing(), read_bounds('\n'.join(TWO_LINES).encode()))
    text = Maker(study, 2).made(p).text()
    table.check('two regions', Timing(), TWO_LINES, text, 'holds A.p()V %d' % TWO_REGIONS)
    first, second = 'region 11 163 11 12 15 18 21', 'region 26 163 26 27 30 33 36'
    around = next(line for line in table.base[2] if line.startswith('loop 5 '))
    table.put('the first as a loop', first, first.replace('region', 'loop'), 'check: edge A.p()V 15 18')
    table.put('the second as a loop', second, second.replace('region', 'loop'), None)
    table.put('all in one region', around, around.replace('loop', 'region'), 'check: member A.p()V 5')
    table.put('the second with the first', second, first.replace('region 11', 'region 26'), None)
    table.change('both in the other order', ['%d=%s' % (table.place(first), second), '%d=%s' % (table.place(second), first)], 'bad cert line=%d' % table.place(second))
    table.without('without an inner loop', [second], None)
    table.check('with fewer turns', Timing(), [line.replace('<=2', '<=1') for line in TWO_LINES], text, 'holds A.p()V %d' % TWO_REGIONS)
    table.check('with more turns', Timing(), [line.replace('<=2', '<=3') for line in TWO_LINES], text, None)
    table.check('in fewer blocks', Timing(blocks=11), TWO_LINES, text, 'check: member A.p()V 11')
    table.check('in more blocks', Timing(blocks=19), TWO_LINES, text, 'holds A.p()V %d' % TWO_REGIONS)
    table.check('in so many blocks that all fit', Timing(blocks=20), TWO_LINES, text, 'check: missing A.p()V')


def beside(table):
    """sections that aren't needed, nodes far off, and kinds that aren't asked for"""
    table.program('beside', 'A', [programs.worked()])
    e, n, c, k = (number(table, 'A.%s()V' % name) for name in 'enck')
    bound = 128 + 53 + 7 + greatest_load(table)
    text = 'JOPC 2\nroot %d\nsection inside %d\nnode 0 53\nbound %d\n' % (e, e, bound)
    table.check('a return', Timing(), ['A.n()V 2 loop<=1', 'A.k()V 2 loop<=1'], text, 'holds A.e()V %d' % bound)
    table.change('a section of another method', ['5+section inside %d' % n, '6+node 0 76', '7+node 1 75', '8+node 2 58', '9+node 3 57', '10+node 6 53', '11+node 9 45', '12+node 12 53', '13+loop 2 17 2 3 6 9'],
                 'check: edge A.n()V 1 2')
    table.change('one that is right', ['5+section inside %d' % n, '6+node 0 77', '7+node 1 76', '8+node 2 58', '9+node 3 57', '10+node 6 53', '11+node 9 45', '12+node 12 53', '13+loop 2 17 2 3 6 9'],
                 'holds A.e()V %d' % bound)
    table.change('one that lists nothing', ['5+section inside %d' % n], 'check: exit A.n()V 12')
    table.change('one before it', ['3+section loops %d' % c], 'check: missing A.e()V')
    table.change('one behind it', ['5+section loops %d' % c], 'check: exit A.c()V 0r')
    table.change('its loops beside', ['5+section loops %d' % e, '6+node 0 53'], 'holds A.e()V %d' % bound)
    table.change('a node far off', ['5+node 2147483647 9'], 'check: member A.e()V 2147483647')
    table.change('a raise step far off', ['5+raise 2147483647 -9'], 'check: member A.e()V 2147483647r')
    table.change('a loop far off', ['5+loop 2147483647 0 2147483647r'], 'check: member A.e()V 2147483647')
    table.change('members far off', ['5+loop 0 0 0 2147483647 2147483647r'], 'check: member A.e()V 0')
    table.change('a header behind the code', ['5+loop 1 0 1'], 'check: member A.e()V 1')
    table.change('a section of the greatest number', ['5+section alone 4294967295'], 'check: missing #4294967295')
    study = Study(table.known, Timing(), {('A.k()V', 2): 4})
    for version in (1, 2):
        table.check('a loop with a call, version %d' % version, Timing(), ['A.k()V 2 loop<=4'], Maker(study, version).made(k).text())
        table.change('as another kind', ['%d=section %s %d' % (table.place('section inside %d' % k), 'alone' if version == 1 else 'loops', k)], None)


def refused_bounds(table):
    """methods of which no bound is given, since of code that isn't reached more is asked there"""
    table.program('refused', 'A', [programs.refused()])
    dead, loop, r, m = (number(table, 'A.' + name) for name in ('dead()V', 'deadloop()V', 'r()V', 'm(I)V'))
    load, text = greatest_load(table), 'JOPC 1\nroot %d\nsection inside %d\nnode 0 53\nbound %d\n'
    # two methods of two words each, and one of two and one of one
    table.check('a call of itself that is not reached', Timing(), [], text % (dead, dead, 128 + 53 + 10 + 7 + load), 'holds A.dead()V %d' % (128 + 53 + 10 + 7 + load))
    table.check('a loop without a line that is not reached', Timing(), [], text % (loop, loop, 128 + 53 + 10 + 7 + load), 'holds A.deadloop()V %d' % (128 + 53 + 10 + 7 + load))
    table.check('a call of itself', Timing(), [], text % (r, r, 300), 'check: missing A.r()V')
    table.change('behind another section of it', ['3+section alone %d' % r], None)
    nodes = 'node 0 100|node 1 90|node 4 80|node 7 80|node 8 80|node 11 53|'
    lines = ['A.m(I)V %d loop<=3' % place for place in (0, 4, 7)]
    text = ('JOPC 1|root %d|section inside %d|%sloop %%d 50 4 7 8|bound 500' % (m, m, nodes)).replace('|', '\n')
    table.check('two ways into a loop', Timing(), lines, text % 4, 'check: member A.m(I)V 1')
    table.check('two ways into it by the other', Timing(), lines, text % 7, 'check: member A.m(I)V 1')
    table.without('without a loop', ['loop 7 50 4 7 8'], None)


def by_hand(table):
    """all of them"""
    returning(table)
    looping(table)
    calling(table)
    dividing(table)
    with_regions(table)
    with_two_regions(table)
    beside(table)
    refused_bounds(table)
