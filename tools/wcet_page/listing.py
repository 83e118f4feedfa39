"""The source of a method, coloured, with what the report says of each line. Not proved: a tool."""
from functools import lru_cache

from markupsafe import Markup, escape
from pygments import highlight
from pygments.formatters import HtmlFormatter
from pygments.lexers import JavaLexer

# Lines above a method's first line among which its head is sought.
ABOVE = 6


@lru_cache(None)
def coloured(text):
    """the lines of a source as HTML"""
    made = highlight(text, JavaLexer(stripnl=False, ensurenl=False), HtmlFormatter(nowrap=True)).split("\n")
    count = text.count("\n") + 1
    plain = [str(escape(line)) for line in text.split("\n")]
    return [Markup(line) for line in (made + plain[len(made):] if len(made) <= count else plain)[:count]]


def shown_lines(method, others, source):
    """the lines that are shown of a method: from its head to its end, but for those of other methods; none where nothing is known"""
    lines = [line for line in method["lines"] if 1 <= line <= len(source.lines)]
    if not lines:
        return []
    taken = {line for other in others for line in range(min(other), max(other) + 1)} - set(lines)
    first, last = head(method, lines[0], taken, source), min(lines[-1] + 1, len(source.lines))
    return [line for line in range(first, last + 1) if line not in taken]


def head(method, first, taken, source):
    """the line of the head of a method, where it stands closely above its first line"""
    name = method["method"].partition("(")[0].rpartition(".")[2]
    owner = method["method"].partition("(")[0].rpartition(".")[0].rpartition("/")[2].rpartition("$")[2]
    word = {"<init>": owner, "<clinit>": "static"}.get(name, name)
    for line in range(first, max(0, first - ABOVE), -1):
        if line in taken:
            break
        if word + ("" if word == "static" else "(") in source.lines[line - 1].replace(" (", "("):
            return line
    return first


def others_of(method, methods):
    """the lines of the other methods of the same source that lie within this one's"""
    lines = method["lines"]
    found = [other["lines"] for other in methods if other is not method and other["file"] == method["file"] and other["lines"]]
    return [other for other in found if lines and not (min(other) <= min(lines) and max(other) >= max(lines))]


def rows(method, methods, source):
    """the lines of a method: number, code, the rows of its report, what they take with what is called from them, and how often runs visited them;
    `gap` where lines are left out before"""
    own = [row for row in method["report"]["rows"] if row["method"] == method["method"] and row["file"] is not None] if "report" in method else []
    by_line, together = {row["at"]: row for row in own}, {line: each for each in method.get("together", []) for line in each["lines"]}
    most = max([*(each["cycles"] for each in together.values()), 1])
    code, made, before = coloured(source.text), [], None
    for line in shown_lines(method, others_of(method, methods), source):
        row, part = by_line.get(line), together.get(line)
        own_part = 100 * row["cycles"]["value"] / most if row else 0
        rest = 100 * part["cycles"] / most - own_part if part and is_alone(part) else 0
        seen = [each["lines"].get(str(line)) for each in method.get("visited", [])]
        made.append({"line": line, "code": code[line - 1], "row": row, "part": own_part, "rest": rest, "together": part, "seen": sum(filter(None, seen)),
                     "gap": before is not None and line > before + 1})
        before = line
    return made


def is_alone(part):
    """whether nothing else calls what is called from a line"""
    return len(part["lines"]) + len(part["places"]) == 1
