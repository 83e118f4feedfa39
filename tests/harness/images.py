"""Kinds of tables whose rows are the name of the class whose main is run, and class files: the images they are linked to."""
import os
from concurrent.futures import ThreadPoolExecutor

import image_file
from class_files import told
from kind import Kind, files_of, sum_of

# Images of at most so many bytes are also run with every damage of some kinds.
SMALL = 5000


class Words(Kind):
    """the words of an image: how many they are, their sum, and after `words` all of them"""

    def title(self, row):
        return row.split(' ')[1]

    def lines(self, caller, row):
        kind, main, *files = row.split(' ')
        answer = caller.link(main, files_of(files))
        if answer.status != 0:
            yield '%s: %s' % (main, told(answer))
            return
        words = image_file.read(answer.out).words
        yield '%s: %d words, sum %08x' % (main, len(words), sum_of(words))
        if kind == 'words':
            yield '  words ' + ' '.join('%08x' % word for word in words)


class Linked(Kind):
    """the line of `link`, and what `run` says of the image as it is and with damage"""

    def lines(self, caller, row):
        main, *files = row.split(' ')
        files = files_of(files)
        answer = caller.link(main, files)
        yield '%s: %s' % (main, answer.line())
        if answer.status != 0:
            return
        data = answer.out
        image = image_file.read(data)
        if (image.main, image.files) != (main.encode(), files):
            yield '  the file has another name or other classes'
        yield '  read: ' + run(caller, data)
        yield '  word 5 changed: ' + run(caller, changed_word(image, 5))
        yield '  a byte less: ' + run(caller, data[:-1])
        if len(data) <= SMALL:
            yield from damaged(caller, image, data)


def run(caller, data, name='image'):
    """the line that a run of this file ends with at its first boundary"""
    caller.put(name, data)
    return caller.call(['run', '--cycles', '0', name]).line()


def count(caller, tries):
    """of how many files a run ends with the line that stands beside them"""
    def is_told(numbered):
        number, (data, line) = numbered
        return run(caller, data, 'image%d' % number) == line
    with ThreadPoolExecutor(os.cpu_count()) as pool:
        return sum(pool.map(is_told, enumerate(tries)))


def changed_word(image, place):
    """the file with the lowest bit of a word changed"""
    words = list(image.words)
    words[place] ^= 1
    return image_file.ImageFile(image.main, words, image.files).data()


def damaged(caller, image, data):
    """what comes of fronts of the file, of words changed in turn, of too many words, and of a class file that begins otherwise"""
    bad = count(caller, [(data[:length], 'bad image') for length in range(len(data))])
    yield '  %d fronts are no image' % bad
    told = count(caller, [(changed_word(image, k), difference(image, k)) for k in range(len(image.words))])
    yield '  %d changed words are told' % told
    counts = 8 + len(image.main)
    yield '  too many words: ' + run(caller, data[:counts] + b'\xff' * 4 + data[counts + 4:])
    first = image.files[0]
    other = bytes([first[0] ^ 1]) + first[1:]
    yield '  another mark: ' + run(caller, image_file.ImageFile(image.main, image.words, [other, *image.files[1:]]).data())


def difference(image, place):
    """the line that tells a changed word"""
    word = image.words[place]
    return 'differs word=%d kept=%08x linked=%08x' % (place, word ^ 1, word)
