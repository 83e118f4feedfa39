#!/usr/bin/env python3
"""Works out the words of a linked image from class files, from the description of the format in docs/formats.md alone: `tools/rechecker` does.

usage: expected_image.py MAIN FILE.class ..     prints the words, region by region, eight hexadecimal digits each
       expected_image.py --places MAIN FILE..   prints the places of regions, types, tables, pools, methods and strings too
"""
import os
import sys

sys.path.append(os.path.join(os.path.dirname(os.path.abspath(__file__)), '../../../tools'))
from rechecker.class_files import Class, class_name, instructions, parameters, read_class, width  # noqa: E402, F401
from rechecker.core_classes import Maker, boot_class, core_classes  # noqa: E402, F401
from rechecker.image_words import Image, link, right_tags, units, word  # noqa: E402, F401

if __name__ == '__main__':
    args = sys.argv[1:]
    places = args[0] == '--places'
    if places:
        args = args[1:]
    image = link(args[0].replace('.', '/').encode(), [open(f, 'rb').read() for f in args[1:]])
    for name, words in image.regions():
        print(name, len(words), *('%08x' % word(w) for w in words))
    if places:
        print(image.place, image.total)
        print('pools', image.pool_place)
        print('methods', {(image.classes[p[0]].name.decode(), image.method(p)['name'].decode()): v for p, v in image.method_place.items()})
        print('strings', image.string_place)
