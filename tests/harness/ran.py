"""The kind of tables whose rows are programs of files of the repository: a title, the name of the class whose main is run, the input, the
words of memory, and paths."""
import hashlib
import os

from class_files import told
from kind import Kind

TOP = os.path.join(os.path.dirname(os.path.abspath(__file__)), '../..')
CYCLES = 10**12
# The bytes from which an output is told by its length and a digest.
LONG = 30000


class Ran(Kind):
    """how the program ends, and the lines that it puts out, bytes that are no printed char of ASCII as `\\xNN`"""

    def lines(self, caller, row):
        title, main, given, memory, *paths = row.split(' ')
        linked = caller.link(main, [contents(path) for path in paths])
        if linked.status != 0:
            yield '%s: %s' % (title, told(linked))
            return
        caller.put('image', linked.out)
        answer = caller.call(['run', '--memory', memory, '--cycles', str(CYCLES), 'image'], bytes.fromhex(given))
        yield '%s: %s' % (title, answer.line().split(' cycles=')[0])
        yield from ('  ' + line for line in told_of(answer.out))


def told_of(out):
    """the lines of an output, or its length and a digest of a long one"""
    if len(out) > LONG:
        return ['%d bytes, SHA-256 %s' % (len(out), hashlib.sha256(out).hexdigest())]
    return [shown(line) for line in out.split(b'\n')[:-1]]


def shown(line):
    return ''.join(chr(byte) if 32 <= byte < 127 else '\\x%02x' % byte for byte in line)


def contents(path):
    with open(os.path.join(TOP, path), 'rb') as file:
        return file.read()
