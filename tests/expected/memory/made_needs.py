"""Made programs that allocate: methods that call one another in one direction, with loops within one another and one behind the other, objects and arrays of each kind
in any place of them."""
from assembler import Hand, add

FIRST = 1
TYPES = [4, 5, 8, 9, 10, 11]
PUBLIC = 1


def making(chance):
    """a piece that makes something"""
    way = chance.randrange(6)
    if way == 0:
        return 'new class %s; pop' % chance.choice(['java/lang/Object', 'java/lang/Exception', 'B', 'C'])
    array = 'newarray %d' % chance.choice(TYPES) if chance.random() < 0.7 else 'anewarray class %s' % chance.choice(['java/lang/Object', 'B'])
    length = chance.choice(['iconst_%d' % chance.randrange(6), 'iconst_m1', 'bipush %d' % chance.randrange(-5, 100), 'sipush %d' % chance.randrange(1000), 'ldc_w 70000'])
    return '%s; %s; pop' % (length if way < 4 else 'iload_0', array)


class Coder:
    """makes the text of a method; `calls` are the methods that it may call"""

    def __init__(self, chance, calls):
        self.chance, self.calls, self.labels = chance, calls, 0

    def label(self):
        self.labels += 1
        return 'x%d' % self.labels

    def piece(self, depth):
        chance, way = self.chance, self.chance.randrange(8)
        if way < 3:
            return making(chance)
        if way == 3 and self.calls:
            return 'iload_0; invokestatic method A %s (I)V' % chance.choice(self.calls)
        if way == 4 and depth < 3:
            head, end = self.label(), self.label()
            return '%s: iload_0; ifle %s; iinc 0 -1; %s; goto %s; %s: nop' % (head, end, self.pieces(depth + 1), head, end)
        if way == 5 and depth < 3:
            head = self.label()
            return '%s: iinc 0 -1; %s; iload_0; ifgt %s' % (head, self.pieces(depth + 1), head)
        if way == 6:
            other, end = self.label(), self.label()
            return 'iload_0; ifne %s; %s; goto %s; %s: %s; %s: nop' % (other, self.pieces(depth + 1), end, other, self.pieces(depth + 1), end)
        return 'iinc 0 1' if way < 7 else 'iload_0; iconst_2; idiv; pop'

    def pieces(self, depth):
        return '; '.join(self.piece(depth) for _ in range(self.chance.choice([1, 1, 2, 3])))


def program(chance):
    """the class files: A with up to eight methods, B, and C below it"""
    k, names = Hand('A'), ['f%d' % number for number in range(chance.randrange(2, 8))]
    for number, name in enumerate(names):
        add(k, name, '(I)V', Coder(chance, names[number + 1:]).pieces(0) + '; return', local=chance.randrange(1, 6), stack=chance.randrange(2, 6))
    k.main(bytes.fromhex('04') + k.call(names[0], '(I)V') + b'\xb1')
    above, below = Hand('B'), Hand('C')
    for descriptor in chance.sample(['I', 'J', 'Z', 'J', '[I'], chance.randrange(4)):
        above.field(PUBLIC, 'field%d' % len(above.fields), descriptor)
    below.above = below.cls('B')
    below.field(PUBLIC, 'more', 'J')
    return [k.data(), above.data(), below.data()]
