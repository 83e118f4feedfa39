"""The rows of tests/java.rows, whose first lines say what they are."""
import os
import re

PATH = os.path.join(os.path.dirname(os.path.abspath(__file__)), '../java.rows')


class Row:
    """a row: its name and what it shows, options, the line that is wanted, what tools/adapt makes of it, and the sources"""

    def __init__(self, block):
        self.head, self.wanted, text = block.rstrip('\n').split('\n', 2)
        self.name, self.title = self.head.split(' ', 1)
        options = dict(re.findall(r'\b(release|without)=(\S+) ?', self.title))
        self.title = re.sub(r'\b(release|without)=\S+ ?', '', self.title)
        self.release, self.without = options.get('release', '8'), options.get('without')
        found = re.match(r'adapt: (.*)\n', text)
        self.adapted = found[1] if found else None
        text = text[found.end():] if found else text
        files = re.split(r'^--- (\S+)\n', text, flags=re.M)
        self.sources = {'P.java': text} if len(files) == 1 else dict(zip(files[1::2], files[2::2]))

    def is_refused(self):
        return self.wanted.startswith('link: ')

    def line(self):
        """the line that refuses the row"""
        return self.wanted.removeprefix('link: ')


class Group:
    """a part of a page, of how many methods it is the only obstacle, a title, the line where no row has one, what is said of it, and its rows"""

    def __init__(self, block):
        text, *rows = re.split(r'^=== ', block.rstrip('\n'), flags=re.M)
        head, self.text = text.rstrip('\n').split('\n', 1)
        self.part, self.count, self.title = re.fullmatch(r'(\w+)(?: ([\d,]+))?(?: (.*))?', head).groups()
        found = re.match(r'link: (.*)\n', self.text)
        self.line = found[1] if found else None
        self.text = ' '.join(self.text[found.end() if found else 0:].split('\n'))
        self.rows = [Row(row) for row in rows]


def groups():
    """the groups, in their order"""
    with open(PATH, encoding='utf-8') as file:
        return [Group(block) for block in re.split(r'^\+\+\+ ', file.read(), flags=re.M)[1:]]


def rows():
    return [row for group in groups() for row in group.rows]


def keep_adapted(came):
    """writes, by the names of rows, what tools/adapt makes of them"""
    with open(PATH, encoding='utf-8') as file:
        parts = re.split(r'(?=^(?:===|\+\+\+) )', file.read(), flags=re.M)
    for place, part in enumerate(parts):
        name = re.match(r'=== (\S+)', part)
        if name and name[1] in came:
            parts[place] = re.sub(r'^adapt: .*$', lambda _, line=came[name[1]]: 'adapt: ' + line, part, count=1, flags=re.M)
    with open(PATH, 'w', encoding='utf-8') as file:
        file.write(''.join(parts))
