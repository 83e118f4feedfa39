"""What one types each time, from a file `wcet.toml` (TOML 1.0.0): options by their names without dashes, and `classes`. Not proved: a tool."""
import os
import re
import tomllib

from .messages import Messages, relative
from .words import FILES, FLAGS, NUMBERS, OFTEN, ONCE, WrongWords, nearest, number

NAME = "wcet.toml"
CLASSES = "classes"
# The options that name files and folders, by paths that are relative to the file.
PATHS = {"--source", "--bounds", "--input", "--facts", "--out", "--sarif", "--jop", "--" + CLASSES, *FILES}
# What isn't said in a file.
NEVER = {"--config", "--check"}
KNOWN = [name[2:] for name in (*ONCE, *OFTEN, *FLAGS, *NUMBERS) if name not in NEVER] + [CLASSES]
SYNTAX = re.compile(r"(.*) \(at (?:line (\d+), column (\d+)|end of document)\)")


class WrongFile(WrongWords):
    """that a file of options is none, with what is told of it"""

    def __init__(self, told):
        super().__init__("a file of options is wrong")
        self.told = told


def read(path):
    """the options of a file, and `--classes`: each a list, a text, a number or whether it is on; the errors of all lines are told at once"""
    told = Messages(relative)
    with open(path, "rb") as file:
        data = file.read()
    lines = told.lines[path] = data.decode("utf-8", "replace").split("\n")
    found = {}
    for key, value in parsed(path, data, lines, told).items():
        line = line_of(key, lines)
        try:
            found["--" + key] = taken(key, value, os.path.dirname(path))
        except WrongWords as fault:
            told.error("config", str(fault).removeprefix("--"), path, line, rf"(?<=[=\s]){re.escape(str(value))}" if isinstance(value, int) else None)
    if told.found:
        raise WrongFile(told)
    return found


def parsed(path, data, lines, told):
    """the keys of a file"""
    try:
        return tomllib.loads(data.decode("utf-8"))
    except UnicodeDecodeError:
        told.error("config", "no text of UTF-8", path)
    except tomllib.TOMLDecodeError as fault:
        found = SYNTAX.fullmatch(str(fault))
        line, column = (int(found[2]), int(found[3])) if found and found[2] else (len(lines), None)
        told.error("config", found[1] if found else str(fault), path, line, column)
    except RecursionError:
        told.error("config", "nested too deeply", path)
    return {}


def line_of(key, lines):
    """the line at which a key stands, where it is written plainly"""
    start = re.compile(rf"""\s*\[*\s*(["']?){re.escape(key)}\1\s*[=.\]]""")
    return next((at for at, line in enumerate(lines, 1) if start.match(line)), 1)


def taken(key, value, folder):
    """the value of a key as the command line has it; paths from the folder of the file"""
    name = "--" + key
    if key not in KNOWN:
        raise WrongWords(f"no key {key}{nearest(key, KNOWN)}")
    if name in FLAGS:
        return required(value, bool, f"{key}: true or false is wanted")
    if name in NUMBERS:
        if type(value) is not int:
            raise WrongWords(f"{key}: a number is wanted")
        return number(name, str(value))
    is_list = name in OFTEN or key == CLASSES
    texts = value if is_list and isinstance(value, list) else [value]
    for text in texts:
        required(text, str, f"{key}: a text in quotes{', or a list of them,' if is_list else ''} is wanted")
        if not text or "\0" in text:
            raise WrongWords(f"{key}: a text in quotes is empty, or holds a zero")
    if name in PATHS:
        texts = [placed(text, folder) for text in texts]
    if name in PATHS and name not in ("--out", "--sarif"):
        for text in texts:
            if not os.path.exists(text):
                raise WrongWords(f"{key}: {text} not found")
    return texts if is_list else texts[0]


def required(value, kind, text):
    if not isinstance(value, kind):
        raise WrongWords(text)
    return value


def placed(path, folder):
    """a path of a file in a folder"""
    return path if os.path.isabs(path) or not folder else os.path.join(folder, path)
