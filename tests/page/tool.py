"""Calls of tools/wcet, and what its pages and records show."""
import json
import os
import re
import shlex
import subprocess
from html.parser import HTMLParser

TOP = os.path.dirname(os.path.dirname(os.path.dirname(os.path.realpath(__file__))))
CONTROLLER = f"{TOP}/examples/controller"
HERE = f"{TOP}/tests/page"
# What is shown of figures that are no numbers.
WORDS = {"never ends", "none", "·"}
EMPTY = {"wbr", "area", "base", "br", "col", "hr", "img", "input", "link", "meta"}


class Made:
    """a call of the tool: its status, what it put, and the folder that it left"""

    def __init__(self, jop, folder, *words, out="out"):
        self.jop, self.folder, self.out = jop, folder, os.path.join(folder, out)
        given = words if "--check" in words else ("--out", out, *words)
        ran = subprocess.run([f"{TOP}/tools/wcet", "--jop", jop, *given], cwd=folder, capture_output=True, text=True, check=False)
        self.status, self.said = ran.returncode, ran.stdout.strip()
        if self.said.endswith("/unfinished/wcet.html"):
            self.out += "/unfinished"
        self.told = lines_of(ran.stderr)

    def heads(self):
        """the lines that tell, without those of the source and of what to do"""
        return [line for line in self.told if re.match(r"\S.*: (error|warning|remark): |\d+ (error|warning)|wcet: ", line)]

    def text(self, name):
        with open(os.path.join(self.out, name), encoding="utf-8") as file:
            return file.read()

    def record(self):
        return json.loads(self.text("wcet.json"))

    def page(self):
        return Page(self.text("wcet.html"))

    def said_anew(self, command):
        """the lines that a command of the record puts, or those of a file of the folder"""
        if not command.startswith(("jop ", "tools/")):
            return lines_of(self.text(command))
        words = shlex.split(command)
        if ">" in words:
            words = words[:words.index(">")]
        given = words[words.index("<") + 1] if "<" in words else os.devnull
        words = words[:words.index("<")] if "<" in words else words
        with open(os.path.join(self.out, given), "rb") as source:
            ran = subprocess.run([self.jop if words[0] == "jop" else f"{TOP}/{words[0]}", *words[1:]], cwd=self.out, stdin=source, capture_output=True, check=False)
        out = b"" if words[1] in ("link", "cycle") else ran.stdout
        return lines_of((out + ran.stderr).decode("utf-8", "replace"))


def lines_of(text):
    """the lines of a text, which end at line feeds alone"""
    lines = text.split("\n")
    return lines if lines[-1] else lines[:-1]


class Page(HTMLParser):
    """the elements of a page: identities, links, figures, whether each element is closed, and whether each number of a column of figures is one
    of a line of jop or marked as the page's own"""

    def __init__(self, text):
        super().__init__(convert_charrefs=True)
        self.column = ""
        self.ids, self.links, self.figures, self.faults, self.open, self.words = [], [], [], [], [], []
        self.feed(text)
        self.faults += [f"<{tag}> isn't closed" for tag in self.open]

    def handle_starttag(self, tag, attrs):
        found = dict(attrs)
        self.ids += [found["id"]] if "id" in found else []
        self.links += [found["href"]] if "href" in found else []
        if "src" in found or tag in ("link", "iframe", "object", "embed", "b:img"):
            self.faults.append(f"<{tag}> takes something from elsewhere")
        if tag == "data":
            self.figures.append((found["value"], *found["title"].split("\n")))
        self.column = found.get("class", "") if tag == "td" else self.column
        if tag not in EMPTY:
            self.open.append(tag)

    def handle_startendtag(self, tag, attrs):
        self.handle_starttag(tag, attrs)
        self.handle_endtag(tag)

    def handle_endtag(self, tag):
        if not self.open or self.open[-1] != tag:
            self.faults.append(f"</{tag}> closes {self.open[-1:]}")
        else:
            self.open.pop()

    def handle_data(self, data):
        if self.open and self.open[-1] not in ("script", "style"):
            self.words.append(data)
        if self.open and self.open[-1] == "data" and data.replace(",", "") != self.figures[-1][0] and data not in WORDS:
            self.faults.append(f"{data} is shown of the figure {self.figures[-1]}")
        if self.column == "n" and "td" in self.open and self.open[-1] not in ("data", "i", "title") and any(map(str.isdigit, data)):
            self.faults.append(f"{data} is no figure of a line, and isn't marked as worked out")

    def text(self):
        """the words of the page, with single blanks"""
        return re.sub(r"\s+", " ", "".join(self.words))


def figures_of(value):
    """the figures of a record: values, lines and commands"""
    if isinstance(value, dict) and set(value) == {"value", "line", "command"}:
        yield str(value["value"]), value["line"], value["command"]
    elif isinstance(value, (dict, list)):
        for each in value.values() if isinstance(value, dict) else value:
            yield from figures_of(each)


def figure_faults(made, figures):
    """the figures that don't stand in the line that they name, and the lines that their command doesn't put"""
    lines, faults = {}, []
    for value, line, command in set(figures):
        if command not in lines:
            lines[command] = made.said_anew(command)
        known = lines[command]
        if line not in known and not any(each.startswith(line + " ") for each in known if command.endswith(".cert")):
            faults.append(f"`{command}` doesn't put `{line}`")
        elif value not in re.split(r"[ =]", re.sub("(loop|length|total)<=", "=", line)):
            faults.append(f"{value} doesn't stand in `{line}`")
    return faults


def link_faults(made, page):
    """the links that lead nowhere, and identities that come twice"""
    faults = [f"the identity {each} comes twice" for each in set(page.ids) if page.ids.count(each) > 1]
    for link in set(page.links):
        there = link[1:] in page.ids if link.startswith("#") else os.path.isfile(os.path.join(made.out, link))
        if not there:
            faults.append(f"the link {link} leads nowhere")
    return faults


def page_faults(made):
    """what is wrong with the page and the record of a call"""
    page = made.page()
    return [*page.faults, *link_faults(made, page), *figure_faults(made, [*page.figures, *figures_of(made.record())])]


def differ(what, wanted, came):
    """a fault where two things differ"""
    return [] if wanted == came else [f"{what}: wanted {wanted!r}, came {came!r}"]


def put(path, data):
    """makes a file, and the folders above it"""
    os.makedirs(os.path.dirname(path), exist_ok=True)
    with open(path, "wb") as file:
        file.write(data)
    return path
