"""How long calls of the built program take, and where the files of a measurement lie."""
import os
import resource
import subprocess
import sys
import tempfile

HERE = os.path.dirname(os.path.abspath(__file__))
TOP = os.path.join(HERE, '..')
JOP = os.environ.get('JOP', os.path.join(TOP, 'crates/jop/out/jop'))
sys.path.insert(0, os.path.join(TOP, 'tests/harness'))
sys.path.insert(0, os.path.join(TOP, 'tests/expected'))
sys.path.insert(0, os.path.join(TOP, 'tests/expected/images'))


class Timed:
    """the status of a call, the line on standard error, and the seconds of user time"""

    def __init__(self, status, out, err, seconds):
        self.status, self.out, self.line, self.seconds = status, out, err.decode().strip(), seconds


def once(words, folder, given=b''):
    """calls a program once"""
    before = resource.getrusage(resource.RUSAGE_CHILDREN).ru_utime
    ran = subprocess.run(words, input=given, capture_output=True, cwd=folder)
    seconds = resource.getrusage(resource.RUSAGE_CHILDREN).ru_utime - before
    return Timed(ran.returncode, ran.stdout, ran.stderr, seconds)


def least(words, folder, runs, given=b''):
    """the least of so many calls, since other programs move a time"""
    return min((once(words, folder, given) for _ in range(runs)), key=lambda timed: timed.seconds)


def folder():
    """a folder that goes at the end"""
    return tempfile.TemporaryDirectory(prefix='jop-bench-')


def put(room, name, data):
    """writes a file of a measurement, and gives its name"""
    with open(os.path.join(room, name), 'wb') as file:
        file.write(data)
    return name


def link(room, main, files, runs):
    """links class files, the least of so many times, with the image in `image`"""
    names = [put(room, '%d.class' % number, data) for number, data in enumerate(files)]
    timed = least([JOP, 'link', '--main', main, *names], room, runs)
    put(room, 'image', timed.out)
    return timed


def tell_each(made, tell):
    """tells of the cases that the words name, or of all, each in a folder of its own; the status is 1 in the end where one isn't as it has to be"""
    held = True
    for name in sys.argv[1:] or made:
        with folder() as room:
            held = tell(room, name) and held
    sys.exit(0 if held else 1)
