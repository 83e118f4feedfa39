"""The kind of tables whose rows are calls over each damage of one of their files.

A row is that of a call with one more item, `!FILE:WAY`, which names a file of the row and how it is damaged, in all places of the file from the first on or, behind `@FIRST-LAST/STEP`, in some.
"""
import json
import os
import re
import sys

import image_file
from calls import Call, Calls, data_of, lines_of, name_of, out_text
from class_files import Reader

EXPECTED = os.path.join(os.path.dirname(os.path.abspath(__file__)), '../expected')
# What `link` may say of a class file that can be taken apart.
REFUSALS = [re.compile('link: ' + each) for each in (
    r'bad (class|hierarchy) file=0', r'unsupported version file=0 major=\d+', r'duplicate file=0 name=.*', r'unsupported file=0 (field=\d+|method=\d+( pc=\d+)?) item=.+',
    r'unresolved file=0 entry=\d+ why=(NoClass|NoField|NoMethod|NotAccessible|WrongKind|NotImplemented) name=.*', r'too large (Types|InterfaceMethods|Methods|Words) count=\d+ limit=\d+',
    r'no main', r'not verified file=0 method=\d+ pc=\d+ rule=[a-z]+')]


class Damaged(Calls):
    """runs of damages with the same answer: the first and the last, the status, what was put out, and the line"""

    def title(self, row):
        return ' '.join([super().title(plain(row)), *(item for item in row.split(' ') if item.startswith('!'))])

    def answer(self, caller, rows):
        last = b''
        for row in rows:
            call = Call(plain(row))
            way = next((item[1:] for item in row.split(' ') if item.startswith('!')), None)
            answer = call.made(caller, last)
            if way is None:
                yield from lines_of(call, answer)
            else:
                yield from self.each(caller, call, way, last)
            if call.command() == 'link' and way is None:
                last = answer.out

    def each(self, caller, call, way, last):
        """what comes of each damage of a file"""
        name, way = way.split(':', 1)
        data = data_of(dict(call.files)[name], last)
        words = [name_of(word) for word in call.words]
        found = []
        for changed in damages(data, way):
            caller.put(name_of(name), changed)
            found.append(told(call.command(), caller.call(words), changed))
        yield '%s !%s:%s -> %d' % (' '.join(call.words), name, way, len(found))
        yield from runs_of(found)


def plain(row):
    """a row without what it says of damage"""
    return ' '.join(item for item in row.split(' ') if not item.startswith('!'))


def damages(data, way):
    """the files that come of damage, in the order of the places"""
    way, _, places = way.partition('@')
    way, _, value = way.partition('=')
    lines = re.findall(rb'[^\n]*\n|[^\n]+', data)
    value = bytes.fromhex(value)
    made = {
        'cut': lambda k: data[:k],
        'without': lambda k: data[:k] + data[k + 1:],
        'with': lambda k: data[:k] + value + data[k:],
        'xor': lambda k: data[:k] + bytes([data[k] ^ value[0]]) + data[k + 1:],
        'twice': lambda k: data[:k] + 2 * data[k:k + value[0]] + data[k + value[0]:],
        'line': lambda k: b''.join(lines[:k] + lines[k + 1:]),
        'lines': lambda k: b''.join(lines[:k + 1] + lines[k:]),
        'swap': lambda k: b''.join(lines[:k] + lines[k:k + 2][::-1] + lines[k + 2:]),
    }[way]
    count = len(lines) if way in ('line', 'lines', 'swap') else len(data)
    first, last, step = [int(each) for each in re.fullmatch(r'(\d+)-(\d+)/(\d+)', places).groups()] if places else (0, count - 1, 1)
    return [made(k) for k in range(first, min(last, count - 1) + 1, step)]


def told(command, answer, data):
    """the status, what was put out, and the line of a call"""
    if command == 'link' and is_taken_apart(data):
        return refused_or_linked(answer, data)
    return shown(answer.status, answer.out if command != 'bound' else ends_of(answer.out), answer.err)


def shown(status, out, err):
    """an answer: its status, output that isn't a text, and its lines"""
    return '%d, out %s, %s' % (status, out if isinstance(out, str) else out_text(out), json.dumps(err.decode('utf-8', 'replace'), ensure_ascii=False))


def ends_of(text):
    """the first and the last line of a certificate"""
    lines = text.decode('utf-8', 'replace').split('\n')
    return '%s .. %s' % (lines[0], lines[-2]) if len(lines) > 2 and not lines[-1] else out_text(text)


def runs_of(found):
    """the answers, those that follow each other and are the same in one line"""
    first = 0
    for place, answer in enumerate(found):
        if place + 1 == len(found) or found[place + 1] != answer:
            yield '  %s -> %s' % (first if first == place else '%d-%d' % (first, place), answer)
            first = place + 1


# ---- class files


def is_taken_apart(data):
    """whether a class file is of this machine's versions, and has all its parts and nothing else"""
    try:
        reader = Reader(data)
        texts, _ = reader.pool()
        reader.skip(6)
        reader.skip(2 * reader.number(2))
        for _ in range(2):
            reader.members(texts)
        for _ in range(reader.number(2)):
            reader.skip(2)
            reader.skip(reader.number(4))
    except KeyError:
        return False
    return data[:4] == b'\xca\xfe\xba\xbe' and 50 <= int.from_bytes(data[6:8], 'big') <= 52 and reader.at == len(data)


def refused_or_linked(answer, data):
    """that a class file is refused in one of the ways that there are, or linked to the words of another linker"""
    line = answer.line()
    if answer.status == 2 and not answer.out and any(each.fullmatch(line) for each in REFUSALS):
        return 'refused or linked'
    if answer.status == 0 and line.startswith('linked ') and image_file.read(answer.out).words == words_of(image_file.read(answer.out).main, data):
        return 'refused or linked'
    return shown(answer.status, answer.out, answer.err)


def words_of(main, data):
    """the words of the image of one class file, by another linker"""
    sys.path.append(os.path.join(EXPECTED, 'images'))
    import expected_image
    return [expected_image.word(word) for _, region in expected_image.link(main, [data]).regions() for word in region]
