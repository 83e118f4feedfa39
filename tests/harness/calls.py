"""The kind of tables whose rows are calls, item by item between blanks."""
import json
import os
import threading
import urllib.parse

from caller import Streams
from kind import Kind, sum_of

TOP = os.path.join(os.path.dirname(os.path.abspath(__file__)), '../..')
# Of what is put out at most so many bytes are shown themselves, and of its lines so many.
BYTES, LINES = 64, 24


class Calls(Kind):
    """the status of each call, what was put out, and what stands on standard error"""

    def begins(self, row):
        return not any(item.endswith('=@') for item in row.split(' '))

    def title(self, row):
        return shown(Call(row))

    def answer(self, caller, rows):
        last = b''
        for row in rows:
            call = Call(row)
            answer = call.made(caller, last)
            yield from lines_of(call, answer)
            if call.command() == 'link':
                last = answer.out


class Call:
    """the words of a call with their files, and what stands for its streams"""

    def __init__(self, row):
        self.words, self.files, self.streams, self.room = [], [], Streams(), None
        for item in row.split(' '):
            self.add(item)

    def command(self):
        """the first word, if there is one"""
        return self.words[0] if self.words else ''

    def add(self, item):
        """takes an item of the row"""
        if item.startswith('<'):
            self.take_input(item[1:])
        elif item.startswith('2>'):
            self.streams.err = item[2:]
        elif item.startswith('>'):
            self.streams.out = item[1:]
        elif item.startswith('room='):
            self.room = int(item[5:])
        elif item.startswith('+') and '=' in item:
            self.files.append(item[1:].split('=', 1))
        else:
            word, found, value = item.partition('=')
            self.words.append(word)
            if found:
                self.files.append((word, value))

    def take_input(self, item):
        """`HEX`, `slow:HEX`, `folder` or `closed`"""
        source, found, digits = item.rpartition(':')
        if found:
            self.streams.source = source
        elif item in ('folder', 'closed'):
            self.streams.source, digits = item, ''
        self.streams.given = bytes.fromhex(digits)

    def made(self, caller, last):
        """makes the files, calls the program, and gives its answer"""
        for word, value in self.files:
            make(caller, name_of(word), value, last)
        return caller.call_over([name_of(word) for word in self.words], self.streams, self.room)


def name_of(word):
    """the bytes of a word, in which `%XX` stands for a byte and `%` alone for no byte at all"""
    return b'' if word == '%' else urllib.parse.unquote_to_bytes(word)


def make(caller, name, value, last):
    """makes what a word names"""
    if value == 'folder':
        os.mkdir(caller.path(name))
    elif value == 'pipe':
        os.mkfifo(caller.path(name))
        threading.Thread(target=open_pipe, args=(caller.path(name),), daemon=True).start()
    else:
        caller.put(name, data_of(value, last))


def open_pipe(path):
    """writes into a named pipe, once someone reads it"""
    try:
        with open(path, 'wb') as pipe:
            pipe.write(b'abc')
    except OSError:
        pass


def data_of(value, last):
    """the bytes that a value spells"""
    if value == '@':
        return last
    if value.startswith("'"):
        return urllib.parse.unquote_to_bytes(value[1:])
    if value.startswith('~'):
        with open(os.path.join(TOP, value[1:]), 'rb') as file:
            return file.read()
    return b''.join(part_of(part) for part in value.split('+'))


def part_of(part):
    """bytes in hexadecimal digits, behind `N*` so often; or so many letters, `N*letters`"""
    times, _, digits = part.rpartition('*')
    if digits == 'letters':
        return letters(int(times))
    return bytes.fromhex(digits) * int(times or 1)


def letters(count):
    """letters of which none is as the one 251, 4,096, 8,192 or 65,536 places before it"""
    return bytes(97 + (place + place // 251 + place // 4099) % 26 for place in range(count))


def shown(call):
    """the words of a call, and what stands for streams that aren't plain"""
    streams = call.streams
    others = ['<' + streams.source, '>' + streams.out, '2>' + streams.err]
    return ' '.join(call.words + [other for other in others if not other.endswith('plain')])


def lines_of(call, answer):
    """what came of a call, line by line"""
    yield '%s -> %d, out %s' % (shown(call), answer.status, out_text(answer.out))
    yield '  ' + json.dumps(answer.err.decode('utf-8', 'replace'), ensure_ascii=False)
    if call.command() in ('trace', 'asm'):
        lines = answer.out.decode().splitlines()
        yield from ('  ' + line for line in (lines if len(lines) <= LINES else lines[:8] + lines[-8:]))


def out_text(data):
    """few bytes themselves; of more, how many and their sum"""
    return '%d bytes, sum %08x' % (len(data), sum_of(data)) if len(data) > BYTES else data.hex() + '.'
