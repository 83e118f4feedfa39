"""Files of linked images, read and written by their format (docs/formats.md)."""
import struct

# The words of the header that tell the number of types and where the types' list of arrays begins.
TYPES = 3


class ImageFile:
    """the main class's name, the words and the class files of an image"""

    def __init__(self, main, words, files):
        self.main, self.words, self.files = main, words, files

    def data(self):
        """the bytes of the file"""
        front = b'JOPI' + struct.pack('>HH', 1, len(self.main)) + self.main
        front += struct.pack('>II', len(self.words), len(self.files))
        words = struct.pack('>%dI' % len(self.words), *self.words)
        return front + words + b''.join(struct.pack('>I', len(file)) + file for file in self.files)


def read(data):
    """the image that a file holds"""
    mark, version, length = struct.unpack_from('>4sHH', data)
    if mark != b'JOPI' or version != 1:
        raise ValueError('no file of a linked image')
    at = 8 + length
    count, files = struct.unpack_from('>II', data, at)
    words = list(struct.unpack_from('>%dI' % count, data, at + 8))
    return ImageFile(data[8:at], words, files_from(data, at + 8 + 4 * count, files))


def files_from(data, at, count):
    """so many files, the first of which begins at this place, and nothing behind the last"""
    files = []
    for _ in range(count):
        length, = struct.unpack_from('>I', data, at)
        files.append(data[at + 4:at + 4 + length])
        at += 4 + length
    if at != len(data):
        raise ValueError('bytes behind the last file')
    return files
