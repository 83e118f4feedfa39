"""The kind of tables whose rows are texts of microcode."""
from kind import Kind


class Assembled(Kind):
    """the words of the listing of a text, or the rule that it breaks; `|` stands for a line feed, `^` for a carriage return"""

    def title(self, row):
        return row

    def lines(self, caller, row):
        caller.put('text', row[4:].replace('|', '\n').replace('^', '\r').encode())
        answer = caller.call(['asm', 'text'])
        if answer.status != 0:
            yield answer.line()
            return
        lines = [line.split(' ') for line in answer.out.decode().splitlines()]
        places = [int(place, 16) for place, _ in lines]
        words = [word for _, word in lines]
        yield ' '.join(['asm', *words]) if places == list(range(len(words))) else 'addresses that are out of order'
