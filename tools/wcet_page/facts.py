"""Facts of how often places are visited: of comments and of files, as the text that `jop bound --facts` reads. Not proved: a tool.

A line of a file says so of a place, as that text has it, or of a line of a source, as a note does: `FILE:LINE total<=N`, or with
`in NAME` behind it. Such a line holds of each place at which code of the line begins: an instruction that is of this line by the
tables of its class file (JVM Specification SE 8, 4.7.12) and stands behind one of another line, or behind none.
"""
import os
import re

from rechecker.facts import MOST_BOUND, read_line

from . import notes, runs
from .answers import figure, lines_of
from .folder import put
from .words import nearest

FACTS = "wcet.facts"
NOTE, FILE = "note", "file"
NUMBER = "(0|[1-9][0-9]*)"
BY_LINE = re.compile(rf"([^ \n]+):{NUMBER} total<={NUMBER}(?: in ([^ \n]+))?")
REFUSED = re.compile(r"(bad facts|twice fact|no such fact) line=(\d+)")
# A method that each program has, and that is bounded at once: what is wrong with facts is told of it as of any other.
LEAST = "java/lang/Object.<init>()V"
PLACES = "`javap -c -p` shows the places"
WRITE = "write `NAME PC total<=N`, `NAME PC total<=N per PC` or `FILE:LINE total<=N`, with single spaces"


class Said:
    """a line that says facts: what it says, who says it, and where"""

    def __init__(self, text, by, file, line):
        self.text, self.by, self.file, self.line = text, by, file, line

    def place(self):
        """where a message of it stands: file, line and what the caret points at"""
        return self.file, self.line, notes.AT_TOTAL if self.by == NOTE else None

    def record(self, most):
        return {"by": self.by, "most": most, "text": self.text, "file": self.file, "line": self.line}


class Fact:
    """how often a node of a method is visited at most: in an activation of it, from each entry of the loop with its header at `per` to the next, or in an
    activation of `root`; or what an invoke runs `only`"""

    def __init__(self, method, place, is_raise=False, per=None, root=None, only=None):
        self.method, self.place, self.is_raise, self.per, self.root, self.only, self.by = method, place, is_raise, per, root, only, []

    def subject(self):
        """what a text says once, in the order of the text"""
        return self.place, self.is_raise, self.per is not None, self.per or 0, self.root or "", self.only is not None

    def node(self):
        return f"{self.place}{'r' if self.is_raise else ''}"

    def most(self):
        """of several numbers the least"""
        return min(most for most, _ in self.by)

    def text(self):
        if self.only is not None:
            return f"{self.method} {self.place} only {' '.join(self.only)}"
        scope = f" per {self.per}" if self.per is not None else f" in {self.root}" if self.root else ""
        return f"{self.method} {self.node()} total<={self.most()}{scope}"


class Facts:
    """the facts that are supposed of a program"""

    def __init__(self, study):
        self.study, self.methods, self.told, self.found = study, study.methods, study.told, {}
        said = [*self.notes(), *(line for given in study.facts_given for line in self.lines(given["path"]))]
        self.is_given = bool(said or study.facts_given)
        self.begun = begun(self.methods) if said else {}
        self.take(said)
        self.settle()
        # what goes into the record, none where nothing was given
        self.record = self.study.hashed(FACTS, lines=[self.recorded(fact) for fact in self.ordered()]) if self.is_given else None

    # ---- who says them

    def notes(self):
        """the notes of the sources; what is wrong with comments is told"""
        for source in self.study.sources.values():
            read, faults = notes.read(source, notes.TOTAL)
            for at, text in faults:
                self.told.error("note", text, source.path, at, notes.AT)
            yield from (Said(note.text(notes.TOTAL), NOTE, source.path, note.at) for note in read)

    def lines(self, path):
        """the lines of a file that say something"""
        with open(os.path.join(self.study.folder, path), "rb") as file:
            rows = self.told.lines[path] = lines_of(file.read())
        return [Said(row, FILE, path, number) for number, row in enumerate(rows, 1) if row and not row.startswith("#")]

    # ---- what they say

    def take(self, said):
        """takes what lines say; one that says nothing, or what was said before, is told"""
        seen = set()
        for each in said:
            by_line, by_place = BY_LINE.fullmatch(each.text), read_line(each.text.encode("utf-8", "surrogateescape"))
            if by_line and int(by_line[3]) <= MOST_BOUND:
                subject, found = (by_line[1], int(by_line[2]), by_line[4]), self.of_line(each, by_line)
            elif by_place:
                subject, found = by_place.subject(), [(of_place(by_place), by_place.most)]
            else:
                self.told.error("facts", f"bad fact: `{each.text}`", *each.place(), WRITE)
                continue
            if subject in seen:
                self.told.error("facts", f"twice the same fact: `{each.text}`", *each.place(), "leave one of them")
                continue
            seen.add(subject)
            for fact, most in found:
                self.found.setdefault((fact.method, fact.subject()), fact).by.append((most, each))

    def of_line(self, said, match):
        """the facts of a line of a source: of each place at which its code begins"""
        file, line, most, root = match[1], int(match[2]), int(match[3]), match[4]
        places = self.begun.get((file, line), [])
        known = sorted(each for name, each in self.begun if name == file)
        if not known:
            self.told.warn("facts", f"unused: no class of the program is of {file}", *said.place())
        elif not places:
            kind = "note" if said.by == NOTE else "fact"
            text = f"stale {kind}: no code begins at line {line}; the nearest begins at line {min(known, key=lambda each: (abs(each - line), each))}"
            self.told.error("stale", text, *said.place(), "write it on the line whose visits are counted")
        for m, place in places:
            self.warn_of_test(said, m, place, most)
        return [(Fact(self.methods.names[m], place, root=root), most) for m, place in places]

    def warn_of_test(self, said, m, place, most):
        """warns where the test of a loop is counted as often as the loop goes round: it comes once more"""
        loop = next((each for each in self.study.premises.headers.loops if each.key() == (self.methods.names[m], place)), None)
        turns = self.study.premises.bounds.get(loop.key(), (None, None))[0] if loop else None
        if turns is not None and most <= turns and self.study.heads.is_left_at_its_line(loop):
            text = f"the code of this line begins with the test of a loop that goes round {turns} times, so it may come {turns + 1} times"
            self.told.warn("visits", text, *said.place(), "write it on the first line of the loop's body")

    # ---- the text

    def ordered(self):
        """the facts as the text has them: methods by number, those of names that are none last"""
        number = self.methods.number
        return sorted(self.found.values(), key=lambda each: (number.get(each.method, len(number)), each.method, each.subject()))

    def text(self):
        """the text, and the fact of each of its lines"""
        rows = []
        for each in self.ordered():
            m = self.methods.number.get(each.method)
            at = None if m is None else self.methods.at(m, each.place)
            if at:
                rows.append(("# %s:%d" % at, None))
            rows.append((each.text(), each))
        return "".join(row + "\n" for row, _ in rows), [each for _, each in rows]

    def settle(self):
        """puts the text; the facts that jop refuses are told, one after another, and left out"""
        while self.is_given:
            text, facts = self.text()
            put(self.study.folder, FACTS, text.encode("utf-8", "surrogateescape"))
            answer = self.study.jop.call("bound", "--facts", FACTS, "--method", LEAST, "wcet.jopi", "wcet.bounds")
            refused = REFUSED.fullmatch(answer.line) if answer.status == 2 else None
            fact = facts[int(refused[2]) - 1] if refused and int(refused[2]) <= len(facts) else None
            if fact is None:
                break
            for _, said in fact.by:
                self.told.error("facts", *self.reason(refused[1], fact, said))
            del self.found[fact.method, fact.subject()]

    def reason(self, kind, fact, said):
        """what is told of a fact that jop refuses"""
        if kind == "no such fact":
            why, cure = self.lacking(fact)
            return f"no such fact: {why} (`{said.text}`)", *said.place(), cure
        if kind == "bad facts":
            form = "only" if fact.only is not None else "in" if fact.root else None
            why = f"this jop takes no fact with `{form}`" if form else "jop doesn't take it"
            return f"bad fact: {why} (`{said.text}`)", *said.place(), "say it of an activation of the method, or per entry of a loop"
        return f"twice the same fact: `{said.text}`", *said.place(), "leave one of them"

    def lacking(self, fact):
        """what a fact says nothing of, and what to do"""
        for name in [fact.method, *([fact.root] if fact.root else []), *(fact.only or ())]:
            if name not in self.methods.number:
                return f"no method {name}{nearest(name, self.methods.names)}", "write a method as `jop bound --all` puts it"
        m = self.methods.number[fact.method]
        starts = self.methods.program.starts(m)
        if fact.place not in starts:
            near = sorted(sorted(starts, key=lambda place: abs(place - fact.place))[:2])
            return f"no instruction of {fact.method} begins at {fact.place}; the nearest begin at {' and '.join(map(str, near))}", PLACES
        if fact.is_raise and (fact.place, True) not in self.methods.graph(m)[0].after:
            return f"the instruction at {fact.place} raises nothing", f"leave the `r` behind {fact.place} away"
        if fact.per is not None:
            return f"no loop with its header at {fact.per} has place {fact.node()}", self.around(fact, m)
        return "it says nothing of the program", PLACES

    def around(self, fact, m):
        """the headers of loops in which a node stands"""
        headers = [place for place, nodes in self.study.nodes.get(fact.method, {}).items() if (fact.place, fact.is_raise) in nodes]
        return f"it stands in loops with their headers at {', '.join(map(str, headers))}" if headers else f"it stands in no loop: say it of a call of {self.methods.names[m]}"

    # ---- the record

    def watched(self):
        """the facts of the record as runs are watched by them"""
        for fact in self.record["lines"] if self.record else ():
            m, node = self.methods.number[fact["method"]], (int(fact["node"].rstrip("r")), fact["node"].endswith("r"))
            nodes = () if fact["per"] is None else self.methods.loops(m, [fact["per"]]).get(fact["per"], ())
            if fact["most"] is not None:
                yield runs.Fact(fact, node, nodes)

    def recorded(self, fact):
        file, line = self.methods.at(self.methods.number[fact.method], fact.place) or (None, None)
        most = None if fact.only is not None else figure(fact.most(), fact.text(), FACTS)
        return {"method": fact.method, "node": fact.node(), "per": fact.per, "root": fact.root, "file": file, "line": line, "text": fact.text(), "most": most,
                "by": [said.record(number) for number, said in fact.by], "seen": []}


def begun(methods):
    """the places at which code of each line of a source begins, in the methods of the class files"""
    found = {}
    for m in filter(methods.is_own, range(len(methods.names))):
        before, file = None, methods.file(m)
        for place, line in lines_of_places(methods.tables[m], sorted(methods.program.starts(m))):
            if None not in (file, line) and line != before:
                found.setdefault((file, line), []).append((m, place))
            before = line
    return found


def lines_of_places(table, places):
    """the line of each of some places, which rise, by a table of starts and lines: none in front of the first start"""
    starts, at, line = sorted((start, order, line) for order, (start, line) in enumerate(table)), 0, None
    for place in places:
        while at < len(starts) and starts[at][0] <= place:
            at, line = at + 1, starts[at][2]
        yield place, line


def of_place(line):
    """the fact that a line of a text says"""
    name = line.name.decode("utf-8", "surrogateescape")
    if line.most is None:
        return Fact(name, line.place, only=[each.decode("utf-8", "surrogateescape") for each in line.scope])
    kind, scope = line.scope or (None, None)
    return Fact(name, line.place, line.is_raise, scope if kind == b"per" else None, scope.decode("utf-8", "surrogateescape") if kind == b"in" else None)


def scope_of(fact):
    """in what the visits of a recorded fact are counted, in words"""
    if fact["per"] is not None:
        return f"from an entry of the loop at {fact['per']} to the next"
    return f"in a call of {fact['root'] or 'the method'}"
