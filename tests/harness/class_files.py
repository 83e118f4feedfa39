"""Kinds of tables whose rows are a title, the name of the class whose main is run, and class files."""

import image_file
from kind import Kind, files_of


class Resolved(Kind):
    """what refuses the files before they are verified, or how many classes, methods and types their program has"""

    def lines(self, caller, row):
        title, main, *files = row.split(' ')
        answer = caller.link(main, files_of(files))
        line = counts_of(answer) if answer.status == 0 else told(answer)
        yield '%s: %s' % (title, 'not verified' if line.startswith(NOT_VERIFIED) else line)


# How the line begins that tells which rule of the verifier fails.
NOT_VERIFIED = 'link: not verified '


def told(answer):
    """the line of a refusal, where nothing but that line came"""
    if answer.status == 2 and not answer.out:
        return answer.line()
    return 'status %d, %d bytes, %s' % (answer.status, len(answer.out), answer.line())


def counts_of(answer):
    """how many classes and methods the line of an answer tells, and how many types its image has"""
    word, classes, methods, *_ = answer.line().split(' ')
    types = image_file.read(answer.out).words[image_file.TYPES]
    return '%s %s %s types=%d' % (word, classes, methods, types)


class Verified(Kind):
    """the method, the place and the rule that fail first, or that the files are linked"""

    def lines(self, caller, row):
        title, main, *files = row.split(' ')
        files = files_of(files)
        answer = caller.link(main, files)
        yield '%s: %s' % (title, 'verified' if answer.status == 0 else with_method(told(answer), files))


def with_method(line, files):
    """the line of a rule that fails, with the method's name in place of its numbers"""
    if not line.startswith(NOT_VERIFIED):
        return line
    file, method, *rest = line[len(NOT_VERIFIED):].split(' ')
    names = method_names(files[int(file.split('=')[1])])
    return ' '.join([names[int(method.split('=')[1])], *rest])


class Read(Kind):
    """whether a class file is read (JVM Specification SE 8, 4): `bad`, its version, or that it is one"""

    def lines(self, caller, row):
        title, file = row.split(' ')
        answer = caller.link('A', files_of([file]))
        line = answer.line()
        if line == 'link: bad class file=0':
            found = 'bad'
        elif line.startswith('link: unsupported version file=0 major='):
            found = 'version ' + line.split('=')[-1]
        else:
            found = 'a class file' if answer.status in (0, 2) and line.startswith('link') else told(answer)
        yield '%s: %s' % (title, found)


def method_names(data):
    """the names of the methods of a class file, as `A.step(I)I`, in their order"""
    reader = Reader(data)
    texts, classes = reader.pool()
    reader.skip(2)
    this = texts[classes[reader.number(2)]]
    reader.skip(2)
    reader.skip(2 * reader.number(2))
    members = [reader.members(texts) for _ in range(2)]
    return [this + '.' + member for member in members[1]]


class Reader:
    """reads a class file from its front (JVM Specification SE 8, 4.1)"""

    # the bytes behind the tag of an entry of the pool, but of Utf8
    SIZES = {3: 4, 4: 4, 5: 8, 6: 8, 7: 2, 8: 2, 9: 4, 10: 4, 11: 4, 12: 4, 15: 3, 16: 2, 18: 4}

    def __init__(self, data):
        self.data, self.at = data, 8

    def skip(self, count):
        self.at += count

    def number(self, size):
        self.skip(size)
        return int.from_bytes(self.data[self.at - size:self.at], 'big')

    def pool(self):
        """the texts and the names of classes, by index"""
        texts, classes, index, count = {}, {}, 1, self.number(2)
        while index < count:
            tag = self.number(1)
            if tag == 1:
                length = self.number(2)
                texts[index] = self.data[self.at:self.at + length].decode('utf-8', 'replace')
                self.skip(length)
            elif tag == 7:
                classes[index] = self.number(2)
            else:
                self.skip(self.SIZES[tag])
            index += 2 if tag in (5, 6) else 1
        return texts, classes

    def members(self, texts):
        """the names with the descriptors of fields or methods"""
        found = []
        for _ in range(self.number(2)):
            self.skip(2)
            found.append(texts[self.number(2)] + texts[self.number(2)])
            for _ in range(self.number(2)):
                self.skip(2)
                self.skip(self.number(4))
        return found
