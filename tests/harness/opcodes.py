"""The kind of tables whose rows are code of `main`: what it puts out, and how its run ends."""
from bytecode import Assembler
from kind import Kind


class Opcodes(Kind):
    """the bytes that the code puts out, in hexadecimal digits, and how its run ends"""

    def lines(self, caller, row):
        title, *parts = row.split(' ')
        linked = caller.link('A', [Assembler().assembled(parts)])
        if linked.status != 0:
            yield '%s: %s' % (title, linked.line())
            return
        caller.put('image', linked.out)
        answer = caller.call(['run', 'image'])
        yield '%s: %s %s' % (title, answer.out.hex(), ending(answer))


def ending(answer):
    """how a run ended, without its cycles"""
    word = answer.line().split(' ')[0]
    return word if (answer.status, word) in ((0, 'ended'), (1, 'uncaught')) else answer.line()
