"""Programs by hand whose numbers are worked out by hand too."""
import os
import struct
import sys

sys.path.append(os.path.join(os.path.dirname(os.path.abspath(__file__)), '../graphs'))
import made  # noqa: E402

PUBLIC_STATIC = 9
GOTO, STATIC, RETURN = b'\xa7', b'\xb8', b'\xb1'


class Hand(made.ClassFile):
    """class A, whose methods are static"""

    def __init__(self, name='A'):
        super().__init__(name)

    def static(self, name, descriptor, code, stack=2, local=2, table=(), frames=()):
        self.method(PUBLIC_STATIC, name, descriptor, (stack, local, code, list(table), list(frames)))
        return self

    def call(self, name, descriptor='()V', owner=None):
        return STATIC + struct.pack('>H', self.member(10, owner or self.own_name, name, descriptor))

    @property
    def own_name(self):
        return self.name

    def main(self, code=RETURN):
        return self.static('main', made.MAIN, code)


def counting(front, body, first=5):
    """code that runs `front`, then a loop with `body` while local 0 counts down, and returns; its header is the place that is answered with the frames"""
    header = len(front) + 2
    behind = header + 4 + len(body) + 6
    code = front + bytes([3 + first, 0x3b, 0x1a, 0x9e]) + struct.pack('>h', behind - header - 1) + body
    code += b'\x84\x00\xff' + GOTO + struct.pack('>h', header - len(code) - 3) + RETURN
    frames = [b'\xfc' + struct.pack('>HB', header, 1), bytes([behind - header - 1])]
    return code, header, frames


def dead(front, words, frames):
    """code of so many words: behind what runs, which ends at its last return, stands code that isn't reached, with a frame"""
    size = 4 * words
    last = max([-1, *(place for place, _ in frames)])
    delta = len(front) - last - 1
    code = front + bytes(size - len(front) - 1) + RETURN
    return code, [each for _, each in frames] + [struct.pack('>BH', 251, delta)]


def worked():
    """methods that return, that never end, that call, that loop, that divide under a handler"""
    k = Hand()
    k.static('e', '()V', RETURN)
    k.static('g', '()V', GOTO + b'\0\0', frames=[b'\0'])
    k.static('c', '()V', k.call('e') + RETURN)
    k.static('h', '()V', k.call('g') + RETURN)
    code, _, frames = counting(b'', b'')
    k.static('n', '()V', code, frames=frames)
    # 0 iload_0, 1 ifle 10, 4 iinc, 7 goto 0, 10 return: its first instruction heads a loop
    k.static('l', '(I)V', bytes.fromhex('1a9e00098400ffa7fff9b1'), frames=[b'\0', b'\x09'])
    # 0 iload_0, 1 iload_1, 2 idiv, 3 ireturn, and from 4 on, where the division raises, pop, iload_0, ireturn
    k.static('d', '(II)I', bytes.fromhex('1a1b6cac571aac'), table=[(0, 3, 4, 0)], frames=[b'\x44\x07' + struct.pack('>H', k.cls('java/lang/Throwable'))])
    code, _, frames = counting(b'', k.call('e'))
    k.static('k', '()V', code, frames=frames)
    k.static('b', '()V', k.call('k') + k.call('c') + RETURN)
    k.main()
    return k.data()


def regions(words=384):
    """a method of 256 words whose loop calls one of so many words and one of 384, and that calls one of 256 before the loop"""
    k = Hand()
    code, header, frames = counting(k.call('c'), k.call('a') + k.call('b'))
    behind = header + 1 + frames[1][0]
    code, frames = dead(code, 256, [(header, frames[0]), (behind, frames[1])])
    k.static('m', '()V', code, frames=frames)
    for name, size in (('a', words), ('b', 384), ('c', 256)):
        code, frames = dead(RETURN, size, [])
        k.static(name, '()V', code, frames=frames)
    k.main(k.call('m') + RETURN)
    return k.data()


def two_regions():
    """a method of 256 words that calls one of 512, then in a loop runs two loops, one with calls of that one, the other with calls of another of 512"""
    k = Hand()
    a, b = k.call('a'), k.call('b')
    # 5 and 6 the outer header, 11 and 12 the first inner one, 26 and 27 the second, 45 return
    code = a + bytes.fromhex('063b 1a9e0027 053c 1b9e000c') + a + bytes.fromhex('8401ff a7fff6 053c 1b9e000c') + b + bytes.fromhex('8401ff a7fff6 8400ff a7ffdb b1')
    frames = [(5, b'\xfc\0\x05\x01'), (11, b'\xfc\0\x05\x01'), (24, b'\x0c'), (26, b'\x01'), (39, b'\x0c'), (45, b'\xfa\0\x05')]
    code, frames = dead(code, 256, frames)
    k.static('p', '()V', code, frames=frames)
    for name in 'ab':
        code, frames = dead(RETURN, 512, [])
        k.static(name, '()V', code, frames=frames)
    k.main(k.call('p') + RETURN)
    return k.data()


def refused():
    """graphs that aren't reducible, methods that call themselves or never end, and calls to which control doesn't come"""
    k = Hand()
    k.static('m', '(I)V', bytes.fromhex('1a9900060000001a9afffcb1'), frames=[b'\x04', b'\x02'])
    k.static('r', '()V', k.call('r') + RETURN)
    k.static('g', '()V', GOTO + b'\0\0', frames=[b'\0'])
    k.static('both', '()V', b'\x03' + k.call('m', '(I)V') + k.call('g') + RETURN)
    k.static('all', '()V', b'\x03' + k.call('m', '(I)V') + k.call('g') + k.call('r') + RETURN)
    # control doesn't come to the calls, but they count
    k.static('dead', '()V', RETURN + k.call('r') + RETURN, frames=[b'\x01'])
    k.static('deadloop', '()V', RETURN + k.call('g') + RETURN, frames=[b'\x01'])
    k.main()
    return k.data()
