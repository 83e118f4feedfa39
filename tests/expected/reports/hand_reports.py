"""Classes by hand for `jop report`, with tables of lines, and what has to be put of their methods, worked out by hand from docs/costs.md.

With the usual waits a load takes 4 cycles and 3 for each word, `return` 53, `invokestatic` 93, a raise step 103, a branch 4, `iinc` 8, `bipush` 2, and the others here 1; the dearest invoke
takes 128. A call may raise, so the greatest walk of a method whose call returns goes on from the dearest of both: a raise step takes more than `return`.
"""
import os
import sys

HERE = os.path.dirname(os.path.abspath(__file__))
sys.path[:0] = [os.path.join(HERE, '../headers'), os.path.join(HERE, '../bounds'), os.path.join(HERE, '../graphs')]
import programs  # noqa: E402
from hand_headers import AT_START, LOOP, SEVERAL, TWO, Sourced  # noqa: E402

CALL = 'invokestatic method R leaf (II)V'
# 0 iload_0, 1 ifle 14, 4 and 5 the arguments, 6 the call, 9 iinc, 12 goto 0, 15 return
CALLING = 'h: iload_0; ifle e; iload_0; iload_1; %s; iinc 0 -1; goto h; e: return' % CALL
# the ways meet at 10, the return: by 4, 5 and 6 it takes 6 cycles there, by 9 one
CHOICE = 'iload_0; ifeq c; iload_0; istore_1; goto d; c: nop; d: return'


def lines():
    """class R, whose methods are called by what their tables show, and classes beside it"""
    k = Sourced('R', 'R.java')
    k.lines('straight', 'iload_0; istore_1; return', [(0, 10), (2, 11)])
    k.lines('even', 'nop; nop; return', [(0, 13), (1, 12), (2, 14)])
    k.lines('loop', LOOP, [(0, 20), (2, 21), (7, 22), (10, 21), (13, 23)])
    k.lines('twoOnALine', TWO, [(0, 30), (26, 31)])
    k.lines('headed', AT_START, [(0, 40)])
    k.lines('leaf', 'return', [(0, 50)])
    k.lines('call', 'iload_0; iload_1; %s; return' % CALL, [(0, 51), (5, 52)])
    k.lines('calls', CALLING, [(0, 53), (4, 54), (9, 53), (15, 55)])
    k.lines('choice', CHOICE, [(0, 60), (4, 61), (9, 62), (10, 63)])
    k.lines('again', 'return', [(0, 50)])
    k.lines('allBehind', 'nop; return', [(1, 70)])
    k.lines('noTable', LOOP)
    k.lines('several', SEVERAL, [(0, 80), (4, 81)])
    k.main()
    spaced = Sourced('Spaced', 'Spa ced.java').lines('f', 'nop; return', [(0, 1)])
    colon = Sourced('Colon', 'Colon:7.java').lines('f', 'nop; return', [(0, 2)])
    plain = Sourced('Plain').lines('f', 'nop; return', [(0, 3)])
    packed = Sourced('a/b/Packed', 'Packed.java').lines('f', 'nop; return', [(0, 8)])
    beside = Sourced('Beside', 'R.java').lines('f', 'iload_0; iload_1; invokestatic method R again (II)V; return', [(0, 50)])
    accented = Sourced('Accented', 'Acc\u00e9nt.java').lines('f', 'nop; return', [(0, 12)])
    return [each.data() for each in (k, spaced, colon, plain, packed, beside, accented)]


def of_lines(table):
    """the greatest load is that of `twoOnALine`, of seven words: 25"""
    table.program('lines', 'R', lines())
    say = table.report
    # one word: 7; 2 + 53 + 7 + 128 + 25
    say('a straight line', 'R.straight(II)V', said=[
        'bound=215', 'R.java:11 R.straight(II)V visits=1 cycles=53 share=24%', 'R.java:10 R.straight(II)V visits=1 cycles=2 share=0%', 'loads cycles=7 share=3%',
        'invoke cycles=128 share=59%', 'return cycles=25 share=11%'])
    say('as many cycles by place', 'R.even(II)V', said=[
        'bound=215', 'R.java:14 R.even(II)V visits=1 cycles=53 share=24%', 'R.java:13 R.even(II)V visits=1 cycles=1 share=0%', 'R.java:12 R.even(II)V visits=1 cycles=1 share=0%',
        'loads cycles=7 share=3%', 'invoke cycles=128 share=59%', 'return cycles=25 share=11%'])
    # five turns: 2; six tests of 6, five jumps of 4; five of 8; 53; four words: 16
    say('a loop', 'R.loop(II)V', ['R.loop(II)V 2 loop<=5'], said=[
        'bound=320', 'R.java:21 R.loop(II)V visits=6 cycles=56 share=17%', 'R.java:23 R.loop(II)V visits=1 cycles=53 share=16%', 'R.java:22 R.loop(II)V visits=5 cycles=40 share=12%',
        'R.java:20 R.loop(II)V visits=1 cycles=2 share=0%', 'loads cycles=16 share=5%', 'invoke cycles=128 share=40%', 'return cycles=25 share=7%'])
    say('a loop that no turn goes round', 'R.loop(II)V', ['R.loop(II)V 2 loop<=0'], said=[
        'bound=230', 'R.java:23 R.loop(II)V visits=1 cycles=53 share=23%', 'R.java:21 R.loop(II)V visits=1 cycles=6 share=2%', 'R.java:20 R.loop(II)V visits=1 cycles=2 share=0%',
        'loads cycles=16 share=6%', 'invoke cycles=128 share=55%', 'return cycles=25 share=10%'])
    # 2 + 6 + 5 (6 + 12), and 2 + 7 + 10 (7 + 12): the first instruction of the line is visited once; the second test pushes its limit by bipush
    say('two loops on a line', 'R.twoOnALine(II)V', ['R.twoOnALine(II)V 2 loop<=5', 'R.twoOnALine(II)V 15 loop<=10'], said=[
        'bound=528', 'R.java:30 R.twoOnALine(II)V visits=1 cycles=297 share=56%', 'R.java:31 R.twoOnALine(II)V visits=1 cycles=53 share=10%', 'loads cycles=25 share=4%',
        'invoke cycles=128 share=24%', 'return cycles=25 share=4%'])
    # three turns of 17, and 5 and 53 of the last; three words: 13
    say('a loop at the start', 'R.headed(II)V', ['R.headed(II)V 0 loop<=3'], said=[
        'bound=275', 'R.java:40 R.headed(II)V visits=4 cycles=109 share=39%', 'loads cycles=13 share=4%', 'invoke cycles=128 share=46%', 'return cycles=25 share=9%'])
    # both loads: two words and one, 10 + 7; the call, 2 + 93, and its raise step
    say('a call', 'R.call(II)V', said=[
        'bound=421', 'R.java:51 R.call(II)V visits=1 cycles=198 share=47%', 'R.java:50 R.leaf(II)V visits=1 cycles=53 share=12%', 'loads cycles=17 share=4%', 'invoke cycles=128 share=30%',
        'return cycles=25 share=5%'])
    # in a cache for one method: its own load, 10; that of the callee, and its own once more, 17
    say('a call that loads', 'R.call(II)V', options=(1, 7), said=[
        'bound=431', 'R.java:51 R.call(II)V visits=1 cycles=198 share=45%', 'R.java:50 R.leaf(II)V visits=1 cycles=53 share=12%', 'loads cycles=27 share=6%', 'invoke cycles=128 share=29%',
        'return cycles=25 share=5%'])
    # four turns call, the fifth raises at its call: five calls
    say('a loop that calls', 'R.calls(II)V', ['R.calls(II)V 0 loop<=4'], said=[
        'R.java:54 R.calls(II)V visits=5 cycles=578 share=52%', 'R.java:50 R.leaf(II)V visits=5 cycles=265 share=24%', 'R.java:53 R.calls(II)V visits=5 cycles=73 share=6%', 'loads cycles=23 share=2%'])
    # its own load, 16; at each of five calls that of the callee, 7, and once more its own
    say('a loop that calls and loads', 'R.calls(II)V', ['R.calls(II)V 0 loop<=4'], options=(1, 7), said=['loads cycles=%d share=10%%' % (16 + 5 * 23)])
    say('the dearer of two ways', 'R.choice(II)V', said=[
        'R.java:63 R.choice(II)V visits=1 cycles=53 share=23%', 'R.java:61 R.choice(II)V visits=1 cycles=6 share=2%', 'R.java:60 R.choice(II)V visits=1 cycles=5 share=2%'])
    say('a line behind', 'R.allBehind(II)V', said=['R.java:70 R.allBehind(II)V visits=1 cycles=53 share=24%', 'R.allBehind(II)V 0 visits=1 cycles=1 share=0%'])
    say('no table', 'R.noTable(II)V', ['R.noTable(II)V 2 loop<=1'], said=[
        'R.noTable(II)V 13 visits=1 cycles=53 share=21%', 'R.noTable(II)V 4 visits=2 cycles=8 share=3%', 'R.noTable(II)V 7 visits=1 cycles=8 share=3%', 'R.noTable(II)V 10 visits=1 cycles=4 share=1%',
        'R.noTable(II)V 2 visits=2 cycles=2 share=0%', 'R.noTable(II)V 3 visits=2 cycles=2 share=0%', 'R.noTable(II)V 0 visits=1 cycles=1 share=0%', 'R.noTable(II)V 1 visits=1 cycles=1 share=0%'])
    for name, heads in (('Plain', ['Plain.f(II)V 1', 'Plain.f(II)V 0']),):
        say('no file of ' + name, name + '.f(II)V', said=['%s visits=1 cycles=%d share=%d%%' % (head, n, n * 100 // 214) for head, n in zip(heads, (53, 1))])
    for name, head in (('Spaced', 'Spa\\x20ced.java:1 Spaced.f(II)V'), ('Colon', 'Colon:7.java:2 Colon.f(II)V'), ('a/b/Packed', 'a/b/Packed.java:8 a/b/Packed.f(II)V'), ('Accented', 'Acc\u00e9nt.java:12 Accented.f(II)V')):
        say('the file of ' + name, name + '.f(II)V', said=['bound=214', head + ' visits=1 cycles=54 share=25%'])
    say('one line of one file in two methods', 'Beside.f(II)V', said=[
        'R.java:50 Beside.f(II)V visits=1 cycles=198 share=47%', 'R.java:50 R.again(II)V visits=1 cycles=53 share=12%'])
    say('several entries', 'R.several(II)V', said='bound: irreducible R.several(II)V 4 8')
    say('no line of the loop', 'R.loop(II)V', ['R.loop(II)V 3 loop<=1'], said='bound: missing bound R.loop(II)V 2')
    say('a line of the source', 'R.loop(II)V', ['R.java:21 loop<=1'], said='bad bounds line=1')
    say('blocks that are too few', 'R.leaf(II)V', options=(6, 1), said='method too long R.twoOnALine(II)V blocks=7 limit=6')


def without_lines(table):
    """the programs by hand of ../bounds, without tables; the greatest load is that of four words: 16"""
    table.program('worked', 'A', [programs.worked()])
    say = table.report
    say('one return', 'A.e()V', said=['bound=204', 'A.e()V 0 visits=1 cycles=53 share=25%', 'loads cycles=7 share=3%', 'invoke cycles=128 share=62%', 'return cycles=16 share=7%'])
    say('never', 'A.g()V', ['A.g()V 0 loop<=5'], said=['bound=never'])
    say('never, since what it calls', 'A.h()V', ['A.g()V 0 loop<=5'], said=['A.h()V 0 visits=1 cycles=196 share=55%'])
    say('a division that raises', 'A.d(II)I', said=['A.d(II)I 2 visits=1 cycles=1364 share=86%', 'A.d(II)I 6 visits=1 cycles=53 share=3%', 'A.d(II)I 4 visits=1 cycles=1 share=0%'])
    say('a loop with a call', 'A.b()V', ['A.k()V 2 loop<=10'])
    say('a loop with a call, longest waits', 'A.b()V', ['A.k()V 2 loop<=10'], waits=(63, 63))
    say('no method', 'A.x()V', said='bound: no method')
    say('the one that starts the program', 'jop/Boot.boot()V', said='bound: no method')
    say('bad before no method', 'A.x()V', ['x'], said='bad bounds line=1')
    say('twice', 'A.e()V', ['A.g()V 0 loop<=5', 'A.g()V 0 loop<=5', 'x'], said='twice bound line=2')
    table.program('refused', 'A', [programs.refused()])
    say('recursion', 'A.r()V', said='bound: recursion A.r()V')
    say('a call of itself that is not reached', 'A.dead()V', said='bound: recursion A.r()V')


def regions(table):
    """a loop whose methods fit the cache, where all that may run do not: 3,084 at its entry; 772 and 772 at the call before it, 772 of the method itself"""
    table.program('regions', 'A', [programs.regions()])
    table.report('regions', 'A.m()V', ['A.m()V 5 loop<=10'], said=['bound=10322', 'loads cycles=%d share=52%%' % (3084 + 772 + 772 + 772), 'A.b()V 0 visits=11 cycles=583 share=5%'])
    table.program('two_regions', 'A', [programs.two_regions()])
    table.report('two regions', 'A.p()V', ['A.p()V %d loop<=2' % place for place in (5, 11, 26)])
