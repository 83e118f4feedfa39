"""Tables: a file of rows, one a line, and a file of what they want, a block of lines for each row.

A line of rows that is empty or begins with `#` is no row. A block is a line and all lines behind it that begin with two blanks.
"""
import os


class Case:
    """one or more rows that are run together"""

    def __init__(self, name, rows, wanted, kind):
        self.name, self.rows, self.wanted, self.kind = name, rows, wanted, kind

    def answer(self, caller):
        """what comes of the rows, line by line"""
        return self.kind.answer(caller, self.rows)


def rows_of(path):
    """the rows of a table, with the numbers of their lines"""
    with open(path, encoding='utf-8') as file:
        lines = file.read().split('\n')
    return [(number, line) for number, line in enumerate(lines, 1) if line and not line.startswith('#')]


def blocks_of(path):
    """the blocks of what is wanted"""
    blocks = []
    with open(path, encoding='utf-8') as file:
        for line in file.read().split('\n')[:-1]:
            if line.startswith('  '):
                blocks[-1].append(line)
            else:
                blocks.append([line])
    return blocks


def read_cases(folder, stem, word, kind):
    """the cases of a table; a row that the kind doesn't begin a case with goes into the case before it"""
    rows = rows_of(os.path.join(folder, '%s.%s' % (stem, word)))
    blocks = blocks_of(os.path.join(folder, '%s.wanted' % stem))
    if len(rows) != len(blocks):
        raise SystemExit('tests: %s has %d rows, and %d blocks of what they want' % (stem, len(rows), len(blocks)))
    cases = []
    for (number, row), block in zip(rows, blocks):
        if cases and not kind.begins(row):
            cases[-1].rows.append(row)
            cases[-1].wanted += block
        else:
            cases.append(Case('%s:%d %s' % (stem, number, kind.title(row)), [row], block, kind))
    return cases
