"""The page of a record: what is worked out for it (shares and ratios alone), and its templates. Not proved: a tool."""
import os

from jinja2 import Environment, FileSystemLoader, StrictUndefined
from markupsafe import Markup

from . import listing, messages, pictures
from .answers import claimed, is_checked
from .titles import Titles
from .words import USUAL

TEMPLATES = os.path.join(os.path.dirname(os.path.realpath(__file__)), "templates")
GROUPS = {"own": "its own lines", "calls": "lines of what it calls", "loads": "loads of the method cache", "invoke": "the invoke",
          "return": "the load on return"}
# The packages of the classes of library/, and of those that tools/adapt makes beside them.
LIBRARY = ("java/", "javax/", "jop/")
# Words of the stack on chip that hold no frames (docs/commands.md, memory).
SAVED = 80
MACHINE = {
    "--blocks": "blocks of the method cache", "--block-words": "words of a block", "--read": "cycles that a read waits", "--write": "cycles that a write waits",
    "--stack": "words of the stack on chip", "--memory": "words of memory", "--cycles": "cycles after which a run is stopped",
}


def fig(figure):
    """a figure, with the line that says it and the command that put the line"""
    value = figure["value"]
    text = f"{value:,}" if isinstance(value, int) else {"never": "never ends", "none": "none"}.get(value, value)
    return Markup('<data value="{}" title="{}\n{}">{}</data>').format(value, figure["line"], figure["command"], text)


def worked(text, why):
    """what this page works out"""
    return Markup('<i class="own" title="{}">{}</i>').format("worked out by this page: " + why, text)


def share(part, whole):
    """a share in per cent, of cycles; nothing where there is no whole"""
    if not isinstance(whole, int) or not whole:
        return ""
    return worked(f"{100 * part / whole:.1f} %", f"{part} of {whole}")


def dearest(method):
    """the dearest activation that was seen, none where there is none"""
    return max((each["greatest"] for each in method["seen"]), key=lambda each: each["value"], default=None)


class Drawn:
    """a method with what its page shows"""

    def __init__(self, method, record, sources):
        self.record, self.method = record, method
        self.anchor, self.dearest = f"m{method['number']}", dearest(method)
        self.by_facts, self.claimed, self.is_checked = method.get("by_facts"), claimed(method), is_checked(method)
        self.facts = [fact for fact in (record.get("facts") or {}).get("lines", []) if fact["method"] == method["method"]]
        self.loops = [loop for loop in record["loops"] if loop["method"] == method["method"]]
        self.source = sources.get(method["file"])
        self.rows = listing.rows(method, [each for each in record["methods"] if each["own"]], self.source) if self.source else []
        self.report = method.get("report", {"rows": [], "parts": {}})

    def has_page(self):
        return "calls" in self.method

    @property
    def is_of_library(self):
        """whether it is of the packages of library/"""
        return self.method["own"] and self.method["method"].startswith(LIBRARY)

    def segments(self):
        """the parts of its number: a row of its report each, its own first"""
        name = self.method["method"]
        rows = [("own" if row["method"] == name else "calls", row["cycles"]) for row in self.report["rows"]]
        found = [(kind, cycles["value"], cycles["line"]) for kind, cycles in sorted(rows, key=lambda row: row[0], reverse=True)]
        return found + [(kind, part["value"], part["line"]) for kind, part in self.report["parts"].items()]

    def picture(self):
        bound = self.method["bound"]["value"]
        return pictures.parts(self.segments(), bound) if self.report["rows"] and isinstance(bound, int) else ""

    def legend(self):
        """each part with its share"""
        segments, bound = self.segments(), self.method["bound"]["value"]
        found = []
        for kind, text in GROUPS.items():
            part = sum(cycles for each, cycles, _ in segments if each == kind)
            found.append((pictures.swatch(kind), text, share(part, bound), self.report["parts"].get(kind)))
        return found

    def others(self):
        """the rows of its report that aren't shown in its listing, the greatest first"""
        shown = {row["line"] for row in self.rows if row["row"]}
        return [row for row in self.report["rows"] if row["method"] != self.method["method"] or row["file"] is None or row["at"] not in shown]

    def prices_of(self, fact):
        """the prices of a fact of its own in its certificate: what a visit gives back"""
        return [each for each in (self.by_facts or {}).get("prices", ()) if (each["node"], each["per"]) == (fact["node"], fact["per"]) and not fact["root"]]

    def callees(self):
        """what it calls, each once, with the lines of the calls"""
        found = {}
        for call in self.method.get("calls", []):
            found.setdefault(call["number"], []).append(call)
        return list(found.items())


def nest(loops, inner):
    """the loops within one another: those in no other, each with those in it"""
    outer = [each for each in loops if not any(each["place"] in inner(other) and other["place"] not in inner(each) for other in loops)]
    return [(each, nest([other for other in loops if other is not each and other["place"] in inner(each)], inner)) for each in outer]


def environment():
    made = Environment(loader=FileSystemLoader(TEMPLATES), autoescape=True, trim_blocks=True, lstrip_blocks=True, undefined=StrictUndefined)
    made.globals.update(fig=fig, worked=worked, is_alone=listing.is_alone, share=share, shown=messages.shown, beneath=messages.beneath)
    made.globals.update(saved=SAVED, machine=MACHINE, patterns=pictures.PATTERNS, style=text_of("style.css"), script=text_of("sort.js"))
    made.globals.update(nest=lambda loops: nest(loops, lambda loop: loop["inner"]))
    return made


def text_of(name):
    """a part of the page that is no template"""
    with open(os.path.join(TEMPLATES, name), encoding="utf-8") as file:
        return Markup(file.read())


def page(record, sources, sha256):
    """the page of a record with this digest, as one text of HTML"""
    drawn = [Drawn(method, record, sources) for method in record.get("methods", [])]
    by_name = {each.method["method"]: each for each in drawn}
    shapes = record.get("shapes")
    options = {**USUAL, **record["options"]}
    plot = pictures.shapes(shapes["rows"], options["--blocks"], options["--block-words"]) if shapes else ""
    callers = {}
    for each in drawn:
        for number, _ in each.callees():
            callers.setdefault(number, []).append(each)
    made = environment()
    made.globals.update(parted=Titles(by_name))
    template = made.get_template("page.html")
    return template.render(record=record, sha256=sha256, methods=drawn, by_name=by_name, callers=callers, options=options, plot=plot)
