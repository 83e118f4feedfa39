"""Names as texts and lines have them. Not proved: a tool.

The bytes below 33, 92 and 127, and 35 as the first one of the written name, stand as `\\xHH`, two capital hexadecimal digits;
all others as they are. So a name holds no space and no line feed, and a line of names splits at single spaces.
"""
import re

SPECIAL = re.compile(rb"^#|[\x00-\x20\\\x7f]")
WRITTEN = re.compile(rb"\\x([0-9A-F]{2})")


def escaped(name):
    """the bytes of a name as they are written"""
    return SPECIAL.sub(lambda found: b"\\x%02X" % ord(found[0]), name)


def written(name):
    """a name as a word of a text, of its bytes"""
    return escaped(name).decode("utf-8", "surrogateescape")


def named(word):
    """the bytes of the name that a word writes, none where it writes none"""
    name = WRITTEN.sub(lambda found: bytes([int(found[1], 16)]), word.encode("utf-8", "surrogateescape"))
    return name if written(name) == word else None
