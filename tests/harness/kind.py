"""What the kinds of tables have in common."""


class Kind:
    """a kind of table: each row is a case of its own, which is named by its first word"""

    def begins(self, row):
        """whether the row begins a case"""
        return True

    def title(self, row):
        """what the row is called"""
        return row.split(' ', 1)[0]

    def answer(self, caller, rows):
        """the lines that the rows of a case come to"""
        for row in rows:
            yield from self.lines(caller, row)


def sum_of(numbers):
    """a sum of numbers, each added to 31 times the sum before it, in 32 bits"""
    total = 0
    for number in numbers:
        total = (total * 31 + number) & 0xFFFFFFFF
    return total


def files_of(words):
    """the files that words of hexadecimal digits are"""
    return [bytes.fromhex(word) for word in words]
