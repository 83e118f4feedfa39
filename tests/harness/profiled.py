"""The kind of tables whose cases are an image, and profiles of its runs."""
from analysis import Asked, folded, text_of
from caller import Streams


class Profiled(Asked):
    """what `profile` puts: rows are `program`; then `profile`, a title, options, the input, and bounds"""

    def answered(self, caller, word, title, options, given, bounds):
        caller.put('bounds', text_of(bounds))
        answer = caller.call_over(['profile', *options.split(), 'image', 'bounds'], streams_of(given))
        yield '%s: %d, %s' % (title, answer.status, answer.line())
        *lines, end = answer.out.decode('utf-8', 'replace').split('\n')
        if end:
            yield '  no line feed at the end'
        yield from ('  ' + line for line in folded(lines) if answer.out)


def streams_of(given):
    """the input: bytes in hexadecimal digits, or one that can't be read"""
    return Streams(source=given) if given in ('closed', 'folder') else Streams(bytes.fromhex(given))
