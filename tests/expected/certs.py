#!/usr/bin/env python3
"""What texts of certificates are read as, by the words of the format: the rows `cert` of crates/test_readers. One that is
read is written so again, and of one behind a # only that is shown.

    python3 certs.py < crates/test_readers/stdin

prints the last lines of crates/test_readers/stdout.

`tools/rechecker` reads them."""
import os
import sys

sys.dont_write_bytecode = True
sys.path.append(os.path.join(os.path.dirname(os.path.abspath(__file__)), '../../tools'))
from rechecker.texts import read_certificate  # noqa: E402


def read(text):
    """a text, as it is shown"""
    found = read_certificate(text)
    if isinstance(found, str):
        return found.replace('bad cert', 'bad')
    shown = ['version=%d root=%d' % (found.version, found.root)]
    for section in found.sections:
        shown.append('%s %d' % (section.kind, section.method))
        shown += ['%d:%d' % node for node in section.nodes]
        shown += ['%s %d %d%s' % (word, header, cost, ''.join(',%d' % u for u in members)) for word, header, cost, members in section.loops]
    return ' '.join([*shown, 'bound=%s' % ('never' if found.bound is None else found.bound), 'written'])


if __name__ == '__main__':
    for row in (it.removeprefix('cert ') for it in sys.stdin.read().split('\n')[:-1] if it.startswith('cert ')):
        is_short = row.startswith('#')
        wanted = read(row[is_short:].replace('|', '\n').replace('^', '\r'))
        print('written' if is_short and wanted.endswith('written') else wanted)
