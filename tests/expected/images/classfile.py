"""Small class files, for the rows at the limits."""
import os
import sys

sys.path.append(os.path.join(os.path.dirname(os.path.abspath(__file__)), '..'))
import class_writer as writer  # noqa: E402


class ClassFile(writer.Pool):
    def __init__(self, flags, name, above='java/lang/Object', interfaces=()):
        super().__init__(pair_first=True)
        self.flags, self.methods, self.fields = flags, [], []
        self.name, self.above = self.cls(name), self.cls(above)
        self.interfaces = [self.cls(i) for i in interfaces]

    def method(self, flags, name, descriptor, code=None, stack=2, local=1):
        codes = [] if code is None else [writer.attribute(self.utf8('Code'), writer.code(stack, local, code))]
        self.methods.append(writer.member(flags, self.utf8(name), self.utf8(descriptor), codes))

    def data(self, version=(0, 52)):
        return writer.class_file(self.pool_bytes(), self.flags, self.name, self.above, self.interfaces, self.fields, self.methods, version=version)


def main_class(code=b''):
    """a class whose main does this and returns; code is a function of the class file"""
    k = ClassFile(0x21, 'Main')
    k.method(9, 'main', '([Ljava/lang/String;)V', (code(k) if callable(code) else code) + b'\xb1')
    return k.data()


# so many names or descriptors without a text for each method: a method's signature is one of each
def signatures(many):
    letters = 'abcdefghijklmnopqrstuvwxyzABCDEFGHIJKLMNOPQRSTUVWXYZ'
    names = [a + b for a in letters for b in letters]
    side = 1
    while side * side < many:
        side += 1
    descriptors = ['(' + ''.join('IJ'[(n >> b) & 1] for b in range(10)) + ')V' for n in range(side)]
    return [(n, d) for n in names[:side] for d in descriptors][:many]
