"""Calls of `jop` and of tools/recheck, with what came of them, and who is told that something takes long. Not proved: a tool."""
import os
import shlex
import subprocess
import sys
import threading
from contextlib import contextmanager

from rechecker import command as rechecker

from .answers import lines_of, text_of
from .words import MACHINE, RUN

# The options that each command takes; those of a call of all shapes are without a shape.
TAKES = {"run": RUN, "trace": RUN, "profile": RUN, "cycle": RUN, "bound": MACHINE, "check": MACHINE, "report": MACHINE, "plan": MACHINE,
         "shapes": ("--read", "--write")}
# Steps of the trace of a run that are gone through at most.
STEPS = 3000000
SECONDS = 1.0


class Answer:
    """a call, its status, what it put, and its line on standard error"""

    def __init__(self, command, status, out, line):
        self.command, self.status, self.out, self.line = command, status, out, line

    def lines(self):
        return lines_of(self.out)


class Jop:
    """the program, called in a folder with the options that a command takes"""

    def __init__(self, program, folder, options):
        self.program, self.folder, self.options = program, os.path.abspath(folder), options

    def words(self, command, words, kind=None):
        taken = TAKES.get(kind or command, ())
        options = [each for name, value in self.options.items() if name in taken for each in (name, str(value))]
        return [command, *options, *words]

    def call(self, command, *words, given=b"", kind=None, shown=None):
        """calls it; `shown` are the words that are recorded, where they aren't these"""
        asked = self.words(command, words, kind)
        ran = subprocess.run([self.program, *asked], input=given, capture_output=True, cwd=self.folder, check=False)
        line = text_of(ran.stderr).rstrip("\n")
        return Answer(shlex.join(["jop", *(shown or asked)]), ran.returncode, ran.stdout, line)

    def steps(self, image, given):
        """the lines of a trace as words, at most STEPS of them"""
        words = [self.program, *self.words("trace", [image])]
        with subprocess.Popen(words, stdin=given, stdout=subprocess.PIPE, stderr=subprocess.DEVNULL, cwd=self.folder) as ran:
            for count, line in enumerate(ran.stdout):
                if count == STEPS:
                    ran.kill()
                    break
                yield line

    def recheck(self, *words):
        """what tools/recheck answers, in this process, which keeps the program of the image; the words but for options are files"""
        asked = self.words("check", words)[1:]
        first = len(asked) - len(words)
        line, status = rechecker.answer(asked[:first] + [each if each.startswith("--") else os.path.join(self.folder, each) for each in asked[first:]])
        return Answer(shlex.join(["tools/recheck", *asked]), status, b"", line)


@contextmanager
def step(what):
    """a step that is told on a terminal where it takes over a second"""
    timer = threading.Timer(SECONDS, lambda: print(f"wcet: {what} ..", file=sys.stderr, flush=True))
    if sys.stderr.isatty():
        timer.start()
    try:
        yield
    finally:
        timer.cancel()
