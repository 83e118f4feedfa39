"""The kind of tables whose rows are methods of class files of the repository, with the bounds of a file there: which number `bound` prints, and
whether `check` holds it."""
from analysis import held
from class_files import told
from kind import Kind
from ran import contents


class BoundedFiles(Kind):
    """the first row of a case is `program`, a title, the name of the class whose main is run, and the paths of the bounds and of the class
    files; the others are a method each"""

    def begins(self, row):
        return row.startswith('program ')

    def title(self, row):
        return row.split(' ')[1]

    def answer(self, caller, rows):
        _, title, main, bounds, *paths = rows[0].split(' ')
        linked = caller.link(main, [contents(path) for path in paths])
        yield '%s: %s' % (title, 'linked' if linked.status == 0 else told(linked))
        caller.put('image', linked.out)
        caller.put('bounds', contents(bounds))
        for method in rows[1:]:
            yield '%s: %s' % (method, bounded(caller, method))


def bounded(caller, method):
    """the number of a method whose certificate holds, or what is told"""
    answer = caller.call(['bound', '--method', method, 'image', 'bounds'])
    if answer.status != 0 or answer.err:
        return told(answer)
    caller.put('certificate', answer.out)
    line = held(caller.call(['check', 'image', 'bounds', 'certificate']))
    number = answer.out.decode().split('\n')[-2]
    return number if line == 'holds %s %s' % (method, number.partition(' ')[2]) else '%s, %s' % (number, line)
