"""Files that are made to cost much; links.py links them.

cycle            33,554,432 bytes of tiny interfaces in one cycle of superinterfaces
entries          a class whose pool has 65,534 entries, most of them methods that all name one class, one name and one descriptor
entries-in-a-ring  a pool of 65,534 Class entries, each of which names the next: no class file
methods          a class of 65,517 abstract methods of one name
same-methods     a class of 65,535 methods of one name and descriptor: no class file
final            a class of 65,517 final methods of one name, and a subclass of as many of that name, each with another descriptor
hidden           the same with the same descriptors, where the final methods are private and so aren't overridden
"""
from refusals import Maker, u1, u2, u4, PUBLIC, SUPER, INTERFACE, ABSTRACT, FINAL, PRIVATE, good

def interface(name, upper):
    texts = [name, 'java/lang/Object', upper]
    pool = b''.join(u1(1) + u2(len(t)) + t.encode() + u1(7) + u2(2 * i + 1) for i, t in enumerate(texts))
    return b'\xca\xfe\xba\xbe' + u2(0) + u2(52) + u2(7) + pool + u2(INTERFACE | ABSTRACT) + u2(2) + u2(4) + u2(1) + u2(6) + u2(0) * 3

def name(n):
    digits = 'abcdefghijklmnopqrstuvwxyzABCDEFGHIJKLMNOPQRSTUVWXYZ0123456789_$'
    return ''.join(digits[n >> s & 63] for s in (18, 12, 6, 0))

def cycle():
    size = len(interface(name(0), name(1)))
    count = 33554432 // size
    return [interface(name(i), name((i + 1) % count)) for i in range(count)]

def entries():
    m = good()
    klass, nt = m.klass('A'), m.nt('f', '()V')
    while len(m.pool) < 65535: m.pool.append(u1(10) + u2(klass) + u2(nt))
    return [m]

def entries_in_a_ring():
    m = good()
    first = len(m.pool)
    while len(m.pool) < 65535: m.pool.append(u1(7) + u2(len(m.pool) + 1 if len(m.pool) < 65534 else first))
    return [m]

def descriptor(n, last=''):
    return '(' + ''.join('IBSCZJ'[n // 6 ** k % 6] for k in range(7)) + ')V' + last

def many(m, flags, code=None, start=0):
    n = start
    while len(m.pool) < 65534:
        m.method('m', descriptor(n), flags, code); n += 1
    return m

def methods(): return [good(), many(Maker('B', flags=PUBLIC | SUPER | ABSTRACT), PUBLIC | ABSTRACT)]

def same_methods():
    m = Maker('B', flags=PUBLIC | SUPER | ABSTRACT)
    for _ in range(65535): m.method('m', '()V', PUBLIC | ABSTRACT)
    return [good(), m]

def final(): return [good(), many(Maker('B'), PUBLIC | FINAL, b'\xb1'), many(Maker('C', superclass='B'), PUBLIC, b'\xb1', 70000)]
def hidden(): return [good(), many(Maker('B'), PRIVATE | FINAL, b'\xb1'), many(Maker('C', superclass='B'), PUBLIC, b'\xb1')]

MADE = {'cycle': cycle, 'entries': entries, 'entries-in-a-ring': entries_in_a_ring, 'methods': methods, 'same-methods': same_methods, 'final': final, 'hidden': hidden}

def files_of(which): return [f if isinstance(f, bytes) else f.bytes() for f in MADE[which]()]
