"""Files of images (docs/formats.md, "Bare image" and "Linked image"). Not proved: a tool."""


class BadImage(Exception):
    """bytes that are in no grammar of images"""


class Bytes:
    """reads numbers and bytes one behind the other"""

    def __init__(self, data):
        self.data, self.at = data, 0

    def take(self, count):
        self.at += count
        if self.at > len(self.data):
            raise BadImage
        return self.data[self.at - count:self.at]

    def number(self, size):
        return int.from_bytes(self.take(size), 'big')

    def end(self):
        if self.at != len(self.data):
            raise BadImage


class LinkedImage:
    """the main class's name, the words and the class files of a linked image"""

    def __init__(self, data):
        file = Bytes(data)
        if file.take(4) != b'JOPI' or file.number(2) != 1:
            raise BadImage
        self.main = file.take(file.number(2))
        words, files = file.number(4), file.number(4)
        if 4 * words + 4 * files > len(data):
            raise BadImage
        self.words = [file.number(4) for _ in range(words)]
        self.files = [file.take(file.number(4)) for _ in range(files)]
        file.end()


# The instructions of bare images: the words that each takes and leaves. `return` is the last and no other.
OPERANDS = {
    0: (0, 0), **{op: (0, 1) for op in (*range(2, 9), 16, *range(26, 30))}, **{op: (1, 0) for op in range(59, 63)},
    87: (1, 0), 89: (1, 2), **{op: (2, 1) for op in (96, 100, 126, 128, 130)}, 255: (1, 0),
}
RETURN, BIPUSH = 177, 16
MOST_WORDS, MOST_CODE = 176, 4096


class BareImage:
    """the code of a bare image"""

    def __init__(self, data):
        file = Bytes(data)
        if file.take(4) != b'JOPB' or file.number(2) != 1:
            raise BadImage
        self.local_words, self.stack_words = file.number(2), file.number(2)
        self.code = file.take(file.number(4))
        file.end()
        if self.local_words + 5 + self.stack_words > MOST_WORDS or not 1 <= len(self.code) <= MOST_CODE:
            raise BadImage
        self.walk()

    def walk(self):
        """goes through the instructions with the number of operands"""
        at, operands = 0, 0
        while self.code[at] != RETURN:
            op = self.code[at]
            takes, leaves = OPERANDS.get(op, (None, None))
            named = op - 26 if 26 <= op < 30 else op - 59 if 59 <= op < 63 else None
            at += 2 if op == BIPUSH else 1
            if takes is None or operands < takes or named is not None and named >= self.local_words:
                raise BadImage
            operands += leaves - takes
            if operands > self.stack_words or at >= len(self.code):
                raise BadImage
        if at != len(self.code) - 1:
            raise BadImage


def read_image(data):
    """the image of a file's bytes"""
    return BareImage(data) if data[:4] == b'JOPB' else LinkedImage(data)
