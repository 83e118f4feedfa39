"""The folder of a record: copies of all that was handed in, and what is made of them. Not proved: a tool."""
import os
import re
import shutil

from .classes import digest
from .words import WrongWords

GIVEN, CERTIFICATES, UNFINISHED = "given", "certificates", "unfinished"
RECORD, PAGE = "wcet.json", "wcet.html"
# What lies in a folder beside what was handed in; the page comes last, so that it is the newest.
MADE = ("wcet.jopi", "wcet.notes", "wcet.bounds", "wcet.facts", "wcet.sizes", RECORD, PAGE)
# Those of them that are there only where something was handed in for them.
SOMETIMES = {"wcet.facts"}


class Folder:
    """a folder that is made anew: `paths` has of each copy in it the path by which the file was handed in"""

    def __init__(self, path):
        self.path, self.paths = path, {}
        shutil.rmtree(path, ignore_errors=True)
        os.makedirs(path)

    def keep(self, kind, name, path, data):
        """puts a copy of a file that was handed in, and gives its place in the folder"""
        place = next(each for each in self.places(kind, name) if each not in self.paths)
        put(self.path, place, data)
        self.paths[place] = path
        return place

    def places(self, kind, name):
        """places for a name: of several files of one name each gets one"""
        yield f"{GIVEN}/{kind}/{name}"
        head, tail = os.path.split(name)
        for count in range(2, 2**16):
            yield f"{GIVEN}/{kind}/{os.path.join(head, f'{count}-{tail}')}"

    def keep_file(self, kind, path):
        """the same of a file that is read here"""
        with open(path, "rb") as file:
            data = file.read()
        place = self.keep(kind, re.sub(r"[^\w.$+-]", "_", os.path.basename(path)), path, data)
        return {"path": place, "sha256": digest(data)}

    def tell_by_copies(self, room):
        """gives files of a folder that doesn't last the paths of their copies"""
        for place, path in self.paths.items():
            if path.startswith(room + os.sep):
                self.paths[place] = os.path.join(self.path, place)


def put(folder, place, data):
    """makes a file, and the folders above it"""
    path = os.path.join(folder, place)
    os.makedirs(os.path.dirname(path), exist_ok=True)
    with open(path, "wb") as file:
        file.write(data)


def require_own(out):
    """a folder is taken where it is new, or has been made before"""
    taken = [name for name in (GIVEN, CERTIFICATES, UNFINISHED) if os.path.exists(os.path.join(out, name))]
    if taken and not any(os.path.isfile(os.path.join(out, *at, RECORD)) for at in ((), (UNFINISHED,))):
        raise WrongWords(f"{os.path.join(out, taken[0])} isn't one of a record: name another folder by --out")


def finish(out):
    """moves what is unfinished into its folder, in place of what was made before"""
    room = os.path.join(out, UNFINISHED)
    for name in (GIVEN, CERTIFICATES):
        shutil.rmtree(os.path.join(out, name), ignore_errors=True)
        if os.path.isdir(os.path.join(room, name)):
            os.rename(os.path.join(room, name), os.path.join(out, name))
    for name in MADE:
        if name in SOMETIMES and not os.path.exists(os.path.join(room, name)):
            if os.path.exists(os.path.join(out, name)):
                os.remove(os.path.join(out, name))
        else:
            os.replace(os.path.join(room, name), os.path.join(out, name))
    os.rmdir(room)


def files_below(top):
    """the places of all files of a folder, rising"""
    return sorted(os.path.relpath(os.path.join(at, name), top) for at, _, names in os.walk(top) for name in names)


def inside(top, place):
    """the path of a place of a folder where that is a file which lies in it, else none"""
    path, real = os.path.join(top, place), os.path.realpath(top)
    is_inside = os.path.commonpath([real, os.path.realpath(path)]) == real
    return path if is_inside and os.path.isfile(path) else None
