"""Calls of the built program, each in a folder of its own, and what came of them."""
import fcntl
import os
import subprocess
import threading
import time

SECONDS = 600
# How a slow stream goes: the seconds between two pieces, and the bytes of a piece that is read.
PAUSE, PIECE = 0.001, 64
# What Linux calls the request that sets the bytes that a pipe holds.
F_SETPIPE_SZ = 1031


class Answer:
    """the status of a call, and what it put on standard output and standard error"""

    def __init__(self, status, out, err):
        self.status, self.out, self.err = status, out, err

    def line(self):
        """the line on standard error, without its end"""
        return self.err.decode('utf-8', 'replace').rstrip('\n')


class Streams:
    """what stands for the three streams of a call: `plain`, `slow`, `folder`, `full`, `gone` or `closed`"""

    def __init__(self, given=b'', source='plain', out='plain', err='plain'):
        self.given, self.source, self.out, self.err = given, source, out, err


class Caller:
    """calls the program in a folder"""

    def __init__(self, program, folder):
        self.program, self.folder = program, folder

    def path(self, name):
        return os.path.join(os.fsencode(self.folder), os.fsencode(name))

    def put(self, name, data):
        """makes a file, and the folders above it"""
        os.makedirs(os.path.dirname(self.path(name)), exist_ok=True)
        with open(self.path(name), 'wb') as file:
            file.write(data)

    def call(self, words, given=b''):
        """calls the program with these words and this input"""
        ran = subprocess.run([self.program, *words], input=given, capture_output=True, cwd=self.folder, timeout=SECONDS)
        return Answer(ran.returncode, ran.stdout, ran.stderr)

    def link(self, main, files):
        """links class files"""
        names = ['%d.class' % number for number in range(len(files))]
        for name, data in zip(names, files):
            self.put(name, data)
        return self.call(['link', '--main', main, *names])

    def call_over(self, words, streams, room=None):
        """calls the program over these streams, in an address space of at most so many bytes"""
        given, giver = source_of(streams, self.folder)
        out, out_reader = sink_of(streams.out)
        err, err_reader = sink_of(streams.err)
        command = ['sh', '-c', bound_of(room) + 'exec "$0" "$@"' + closings(streams), self.program, *words]
        ran = subprocess.Popen(command, cwd=self.folder, stdin=given, stdout=out, stderr=err)
        for number in {given, out, err}:
            os.close(number)
        try:
            giver()
            return Answer(ran.wait(SECONDS), out_reader(), err_reader())
        finally:
            ran.kill()


def bound_of(room):
    """how the shell bounds the address space"""
    return 'ulimit -v %d; ' % (room // 1024) if room is not None else ''


def closings(streams):
    """what the shell says of streams that are closed"""
    return ''.join(text for stream, text in ((streams.source, ' <&-'), (streams.out, ' >&-'), (streams.err, ' 2>&-')) if stream == 'closed')


def source_of(streams, folder):
    """what is handed in as standard input, and what gives the bytes"""
    if streams.source == 'folder':
        return os.open(folder, os.O_RDONLY), lambda: None
    reading, writing = os.pipe()
    pieces = [bytes([byte]) for byte in streams.given] if streams.source == 'slow' else [streams.given]
    return reading, started(give, writing, pieces)


def give(writing, pieces):
    """writes pieces into a pipe, as long as they are taken"""
    try:
        for piece in pieces:
            time.sleep(PAUSE)
            os.write(writing, piece)
    except BrokenPipeError:
        pass
    finally:
        os.close(writing)


def sink_of(stream):
    """what is handed in as an output, and what tells the bytes that were put"""
    if stream == 'full':
        return os.open('/dev/full', os.O_WRONLY), lambda: b''
    reading, writing = os.pipe()
    if stream == 'gone':
        os.close(reading)
        return writing, lambda: b''
    held = []
    if stream == 'slow':
        fcntl.fcntl(writing, F_SETPIPE_SZ, 4096)
    join = started(take, reading, held, stream == 'slow')
    return writing, lambda: (join(), b''.join(held))[1]


def take(reading, held, is_slow):
    """reads a pipe to its end"""
    while True:
        if is_slow:
            time.sleep(PAUSE)
        piece = os.read(reading, PIECE if is_slow else 65536)
        if not piece:
            break
        held.append(piece)
    os.close(reading)


def started(task, *arguments):
    """starts a thread, and gives what waits for its end"""
    thread = threading.Thread(target=task, args=arguments)
    thread.start()
    return thread.join
