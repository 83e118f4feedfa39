"""Made methods with loops that count with what is known further, or nearly do: limits and first values by locals, by lengths of arrays of locals and fields,
and computed of such, in methods as made_loops.py makes them."""
import made_loops
from assembler import Hand, add
from made_loops import load, push, step, store

# ints in 0, 1 and 2, a long in 3 and 4, arrays in 5 and 6
LOCALS = '(IIIJ[I[I)V'
FIELDS = ['one', 'same', 'two', 'given', 'read']
COMPUTE = ['iadd', 'isub', 'imul', 'idiv', 'irem', 'ishl', 'ishr', 'iushr', 'iand', 'ior', 'ixor']


def small(chance):
    return push(chance, chance.randrange(0, 12))


def array(chance):
    """lines that push an array"""
    way = chance.randrange(8)
    if way < 3:
        return 'aload %d' % chance.choice([5, 6])
    if way < 5:
        return 'getstatic field M %s [I' % chance.choice(FIELDS)
    made = '%s; newarray 10' % (small(chance) if chance.random() < 0.8 else known(chance, 1))
    for _ in range(chance.choice([0, 0, 0, 1, 2])):
        made += '; dup; iconst_0; %s; iastore' % (small(chance) if chance.random() < 0.8 else load(chance, 1))
    return made


def known(chance, depth=0):
    """lines that push an int"""
    way = chance.randrange(10)
    if way < 3 or depth > 2:
        return small(chance)
    if way < 6:
        return load(chance, chance.choice([1, 2]))
    if way < 8:
        return '%s; arraylength' % array(chance)
    return '%s; %s; %s' % (known(chance, depth + 1), known(chance, depth + 1), chance.choice(COMPUTE))


def limit(chance):
    return known(chance)


def test(chance, local, label):
    """a test of a local that branches to a label"""
    if chance.random() < 0.15:
        return '%s; if%s %s' % (load(chance, local), chance.choice(made_loops.TESTS), label)
    return '%s; %s; if_icmp%s %s' % (load(chance, local), limit(chance), chance.choice(made_loops.TESTS), label)


def setting(chance):
    """a piece that sets a local in front of a loop"""
    way = chance.randrange(4)
    if way < 2:
        return '%s; %s' % (known(chance), store(chance, chance.choice([1, 2])))
    return '%s; astore %d' % (array(chance), chance.choice([5, 6]))


def plain(chance, labels):
    """a piece that stands at any place"""
    return chance.choice([
        'nop', setting(chance), setting(chance), '%s; ifne %s' % (load(chance, 2), chance.choice(labels)), 'goto %s' % chance.choice(labels),
        step(chance, chance.choice([1, 2]), 1), 'lconst_0; lstore 3', '%s; switch %s 0 %s' % (load(chance, 0), chance.choice(labels), chance.choice(labels)),
        'invokestatic method M f ()V', '%s; putstatic field M %s [I' % (array(chance), chance.choice(['read', 'read', 'same'])) if chance.random() < 0.1 else 'nop'])


def loop(chance, local, name):
    by = chance.choice([1, 1, 1, -1, -1, 2, 3])
    header, end = 'h' + name, 'e' + name
    start = '%s; %s' % (small(chance) if chance.random() < 0.5 else known(chance), store(chance, local))
    if chance.random() < 0.6:
        return [start, header + ': ' + test(chance, local, end), step(chance, local, by), 'goto ' + header, end + ': nop'], header, end
    return [start, header + ': ' + step(chance, local, by), test(chance, local, header), end + ': nop'], header, end


def method(chance):
    """a text and its handlers"""
    pieces, header, end = loop(chance, 0, '')
    labels = [header, end]
    if chance.random() < 0.3:
        inner, *more = loop(chance, chance.choice([0, 1, 1]), 'i')
        pieces[2:2] = inner
        labels += more
    pieces[:0] = [setting(chance) for _ in range(chance.choice([1, 2, 2, 3, 4]))]
    for _ in range(chance.choice([0, 0, 0, 1, 1, 2])):
        pieces.insert(chance.randrange(len(pieces) + 1), plain(chance, labels))
    return made_loops.ended(chance, pieces, labels, 0.2)


def program(chance, methods):
    """the class files of class M with so many methods; of its fields one is put one array, one two of one length, one two of two, one a parameter's, one
    what methods put"""
    k = Hand('M')
    for name in FIELDS:
        k.field(8, name, '[I')
    for number in range(methods):
        add(k, 'm%d' % number, LOCALS, *method(chance), local=8, stack=12)
    add(k, 'f', '()V', 'return')
    add(k, 'g', LOCALS, 'aload 5; putstatic field M given [I; iconst_3; newarray 10; putstatic field M same [I; return')
    add(k, '<clinit>', '()V', '; '.join('%s; newarray 10; putstatic field M %s [I' % (size, name) for size, name in (
        ('bipush 7', 'one'), ('iconst_3', 'same'), ('iconst_2', 'two'), ('iconst_4', 'two'), ('iconst_5', 'given'), ('bipush 6', 'read'))) + '; return')
    k.main()
    return [k.data()]
