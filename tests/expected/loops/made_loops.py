"""Made methods with loops that count, or nearly do: a start, a test, a step and a body of a loop, of which some pieces are changed, left out, doubled or moved, and
branches, switches and handlers are put in at any place."""
from assembler import Hand, add

LOCALS = '(IIIJ)V'
ENDS = [0, 1, -1, 2, 5, 10, 100, -100, 127, -128, 32767, -32768, 2147483647, 2147483646, -2147483648, -2147483647]
TESTS = ['eq', 'ne', 'lt', 'ge', 'gt', 'le']


def push(chance, value):
    """an instruction that pushes a constant, in one of its forms"""
    if value == -1:
        return 'iconst_m1'
    if 0 <= value <= 5 and chance.random() < 0.8:
        return 'iconst_%d' % value
    if -128 <= value < 128 and chance.random() < 0.8:
        return 'bipush %d' % value
    if -32768 <= value < 32768 and chance.random() < 0.8:
        return 'sipush %d' % value
    return 'ldc_w %d' % value


def load(chance, local):
    return chance.choice(['iload_%d', 'iload_%d', 'iload %d', '!iload %d']) % local


def store(chance, local):
    return chance.choice(['istore_%d', 'istore_%d', 'istore %d', '!istore %d']) % local


def step(chance, local, by):
    return ('iinc %d %d' if -128 <= by < 128 and chance.random() < 0.8 else '!iinc %d %d') % (local, by)


def any_number(chance):
    return chance.choice(ENDS) if chance.random() < 0.4 else chance.randrange(-20, 20)


def limit(chance):
    if chance.random() < 0.15:
        return 'getstatic field M %s I' % chance.choice(['fixed', 'fixed', 'plain', 'open', 'put'])
    return push(chance, any_number(chance))


def test(chance, local, label):
    """a test of a local that branches to a label"""
    if chance.random() < 0.25:
        return '%s; if%s %s' % (load(chance, local), chance.choice(TESTS), label)
    return '%s; %s; if_icmp%s %s' % (load(chance, local), limit(chance), chance.choice(TESTS), label)


def plain(chance, labels):
    """a piece that stands at any place"""
    other = chance.randrange(3)
    return chance.choice([
        'nop', '%s; pop' % load(chance, other), '%s; ifne %s' % (load(chance, other), chance.choice(labels)), 'goto %s' % chance.choice(labels),
        step(chance, other, chance.choice([1, -1, 2, 3, 300])), '%s; %s' % (push(chance, any_number(chance)), store(chance, other)),
        '%s; %s; idiv; pop' % (load(chance, 1), load(chance, 2)), 'lconst_0; lstore 3', test(chance, other, chance.choice(labels)),
        '%s; switch %s 0 %s %s' % (load(chance, other), chance.choice(labels), chance.choice(labels), chance.choice(labels)),
        'invokestatic method M f ()V', '%s; %s' % (load(chance, other), store(chance, other)), 'return'])


def loop(chance, local, name):
    """the pieces of a loop of a local: in front of it, its test in front or at its end, its step"""
    by = chance.choice([1, 1, 1, -1, -1, 2, -2, 3, -3, 7, 300, -300])
    header, end = 'h' + name, 'e' + name
    start = '%s; %s' % (push(chance, any_number(chance)), store(chance, local))
    way = chance.randrange(3)
    if way == 0:
        return [start, header + ': ' + test(chance, local, end), step(chance, local, by), 'goto ' + header, end + ': nop'], header, end
    if way == 1:
        return [start, header + ': ' + step(chance, local, by), test(chance, local, header), end + ': nop'], header, end
    return [start, 'goto t' + name, header + ': ' + step(chance, local, by), 't%s: ' % name + test(chance, local, header), end + ': nop'], header, end


def ended(chance, pieces, labels, share):
    """the text of the pieces, with a handler in this share of all, and its handlers"""
    pieces.append('return')
    handlers = []
    if chance.random() < share:
        first = chance.randrange(len(pieces) - 1)
        last = chance.randrange(first + 1, len(pieces))
        pieces[first], pieces[last] = 'a: ' + pieces[first], 'b: ' + pieces[last]
        pieces += ['c: pop', 'goto ' + chance.choice(labels), 'nop', 'return']
        handlers = [('a', 'b', 'c')]
    return '; '.join(pieces), handlers


def method(chance):
    """a text and its handlers"""
    pieces, header, end = loop(chance, 0, '')
    labels = [header, end]
    if chance.random() < 0.3:
        inner, *more = loop(chance, chance.choice([0, 1, 1, 1]), 'i')
        at = chance.randrange(1, len(pieces))
        pieces[at:at] = inner
        labels += more
    for _ in range(chance.choice([0, 0, 1, 1, 2, 3])):
        pieces.insert(chance.randrange(len(pieces) + 1), plain(chance, labels))
    if chance.random() < 0.1:
        at = chance.randrange(len(pieces))
        pieces[at:at + 1] = [pieces[at]] * 2 if ':' not in pieces[at] else [pieces[at]]
    return ended(chance, pieces, labels, 0.25)


def program(chance, methods):
    """the class files of class M with so many methods"""
    k = Hand('M')
    for name, flags, value in (('fixed', 24, 6), ('plain', 24, None), ('open', 8, 6), ('put', 24, 6)):
        k.constant(flags, name, value)
    for number in range(methods):
        add(k, 'm%d' % number, LOCALS, *method(chance))
    add(k, 'f', '()V', 'return')
    add(k, '<clinit>', '()V', 'return; iconst_1; putstatic field M put I; return')
    k.main()
    return [k.data()]
