#!/usr/bin/env python3
"""rows.py OUT: writes tests/tables/images. A row is a main class and class files in hexadecimal, and its answer the words of the image, region by region,
as expected_image.py works them out. OUT is where javac --release 8 -g:none put the classes of this folder. The rows at the limits are those of limits.py."""
import os
import sys
import expected_image
import limits

TABLES = os.path.join(os.path.dirname(os.path.abspath(__file__)), '../../tables')

ROWS = [('Hello', ['Hello', 'Hello$Shape', 'Hello$Base', 'Hello$Square']), ('Statics', ['Statics']), ('Texts', ['Texts', 'Other']), ('Arrays', ['Seen', 'Arrays']),
        ('Inherited', ['Top', 'Integer', 'Left', 'Right', 'Half', 'Whole', 'Inherited']), ('Crossing', ['a/Base', 'b/Middle', 'a/Last', 'Crossing']), ('Caught', ['Caught'])]

if __name__ == '__main__':
    out = sys.argv[1]
    with open(os.path.join(TABLES, 'images.images'), 'w') as given, open(os.path.join(TABLES, 'images.wanted'), 'w') as wanted:
        for main, names in ROWS:
            files = [open(os.path.join(out, n + '.class'), 'rb').read() for n in names]
            given.write(' '.join(['words', main] + [f.hex() for f in files]) + '\n')
            image = expected_image.link(main.encode(), files)
            words = [w for _, region in image.regions() for w in region]
            assert len(words) == image.total
            total = 0
            for w in words:
                total = (total * 31 + expected_image.word(w)) & 0xFFFFFFFF
            wanted.write('%s: %d words, sum %08x\n' % (main, len(words), total))
            wanted.write(' '.join(['  words'] + ['%08x' % expected_image.word(w) for w in words]) + '\n')
        limits.write(given, wanted)
