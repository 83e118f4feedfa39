"""The methods of a program: their bounds, certificates, reports, and why one has no bound. Not proved: a tool."""
import re

from rechecker.texts import read_certificate

from . import answers, together
from .answers import figure
from .classes import digest
from .facts import FACTS
from .folder import CERTIFICATES, put
from .words import nearest

IMAGE, BOUNDS = "wcet.jopi", "wcet.bounds"
PRICE = re.compile(r"price (\d+r?) (\d+)(?: per (\d+))?")
# The word with which a loop begins.
LOOP = r"\b(for|while|do)\b"


class Bounded:
    """what `bound`, `check`, `report` and tools/recheck say of methods; `asked` are those that are asked for, `shown` also all that they may run"""

    def __init__(self, study):
        self.study, self.jop, self.told, self.methods = study, study.jop, study.told, study.methods
        self.program = self.methods.program
        answer = self.jop.call("bound", "--all", IMAGE, BOUNDS)
        self.said = answers.all_bounds(answer)
        if answer.status:
            self.tell_refusal(answer)
        self.asked = self.those_asked() if self.said else []
        self.within = set(self.program.within(self.asked))
        self.shown = sorted(m for m in self.within if self.methods.is_own(m))
        self.causes = {}

    def tell_refusal(self, answer):
        """tells why nothing is bounded: at the method whose code doesn't fit the cache, where it is that"""
        long = re.fullmatch(r"method too long (\S+) .*", answer.line)
        m = self.methods.number.get(long[1]) if long else None
        self.told.error("refused", f"{answer.command}: {answer.line}", *self.study.shown(None if m is None else self.methods.at(m)))

    def those_asked(self):
        """the methods that are asked for: those that are named, else those of the class files that may run; and those that have deadlines"""
        due = [self.methods.number[each.method] for each in self.study.deadlines.rows if each.method in self.said]
        if not self.study.asked.methods:
            return sorted({*due, *(m for m in self.program.within([self.methods.boot]) if self.methods.is_own(m))})
        found = []
        for name in self.study.asked.methods:
            if name in self.said:
                found.append(self.methods.number[name])
            else:
                self.told.error("method", f"no method {name}{nearest(name, list(self.said))}")
        return found + [m for m in due if m not in found]

    def listed(self):
        """all methods but the one that starts the program: those of the class files first"""
        every = [m for m, name in enumerate(self.methods.names) if name in self.said]
        return sorted(every, key=lambda m: (not self.methods.is_own(m), m))

    # ---- a method

    def method(self, m):
        """a method as it goes into the record"""
        name = self.methods.names[m]
        bound, cause = self.said[name]
        file, line = self.methods.at(m) or (None, None)
        found = {"method": name, "number": m, "file": file, "line": line, "lines": self.methods.lines(m), "own": self.methods.is_own(m),
                 "asked": m in self.asked, "within": m in self.within, "bound": bound, "cause": cause, "seen": [], "checked": False}
        if m in self.shown:
            found["calls"], found["visited"] = self.calls(m), []
            if bound["value"] != "none":
                self.certify(found)
                if self.study.facts.is_given:
                    found["by_facts"] = self.price(found)
            elif cause == "recursion":
                self.causes[m] = self.jop.call("bound", "--method", name, IMAGE, BOUNDS).line
        return found

    def calls(self, m):
        """the methods that each invoke may run, with its line"""
        found = []
        for place, targets in sorted(self.program.called[m].items()):
            at = self.methods.at(m, place)
            found += [{"method": self.methods.names[t], "number": t, "place": place, "line": at[1] if at else None} for t in targets]
        return found

    def certify(self, found):
        """a certificate, what both checkers say of it, and where its number comes from"""
        name, path = found["method"], f"{CERTIFICATES}/{found['number']}.cert"
        made = self.jop.call("bound", "--method", name, IMAGE, BOUNDS)
        put(self.study.folder, path, made.out)
        text = made.out
        found["certificate"] = {"path": path, "sha256": digest(text), "command": f"{made.command} > {path}", "line": last_line(text)}
        found["checks"], found["checked"] = self.checks(found, found["bound"]["value"], path)
        found["turns"] = turns_of(text, found["number"])
        found["report"] = self.report(name)
        found["together"] = together.lines_of(found["number"], name, found["report"], self.methods)

    def price(self, found):
        """the number by facts: its certificate, which has prices of them, and what both checkers say of it; none where there is none"""
        name, path = found["method"], f"{CERTIFICATES}/{found['number']}-facts.cert"
        made = self.jop.call("bound", "--facts", FACTS, "--method", name, IMAGE, BOUNDS)
        if made.status:
            self.told.error("refused", f"{made.command}: {made.line}", *self.at(found))
            return None
        put(self.study.folder, path, made.out)
        line = last_line(made.out)
        bound = figure(answers.number(line.removeprefix("bound ")), line, path)
        checks, checked = self.checks(found, bound["value"], path, "--facts", FACTS)
        certificate = {"path": path, "sha256": digest(made.out), "command": f"{made.command} > {path}", "line": line}
        return {"bound": bound, "certificate": certificate, "checks": checks, "checked": checked, "prices": prices_of(made.out, found["number"], path)}

    def checks(self, found, number, path, *facts):
        """what both checkers say of a certificate of a method, and whether they hold it with this number"""
        wanted = f"holds {found['method']} {number}"
        said = [self.jop.call("check", *facts, IMAGE, BOUNDS, path), self.jop.recheck(*facts, IMAGE, BOUNDS, path)]
        for each in said:
            if each.line != wanted:
                self.told.error("certificate", f"{each.command}: `{each.line}`, not `{wanted}`", *self.at(found))
        return [{"command": each.command, "line": each.line} for each in said], all(each.status == 0 and each.line == wanted for each in said)

    def at(self, found):
        """the first line of a method that is recorded"""
        return self.study.shown((found["file"], found["line"]) if found["file"] else None)

    def report(self, name):
        answer = self.jop.call("report", "--method", name, IMAGE, BOUNDS)
        if answer.status:
            self.told.error("refused", f"{answer.command}: {answer.line}")
        return {"command": answer.command, **answers.report(answer)}

    # ---- what lacks

    def tell(self):
        """tells why methods have no bound"""
        for loop in self.study.premises.headers.loops:
            if loop.key() not in self.study.premises.bounds:
                how = "`// @WCA loop=N`" if loop.at else f"in a file of --bounds, `{loop.method} {loop.place} loop<=N`"
                cure = f"say how often it goes round at most: {how}"
                self.tell_of("loop", self.methods.number[loop.method], loop.place, f"loop without a bound ({loop.method} {loop.place})", LOOP, cure)
        for name, nodes in self.study.premises.headers.irreducible:
            text = f"loop with several entries ({' '.join([name, *nodes])})"
            self.tell_of("irreducible", self.methods.number[name], int(nodes[0].rstrip("r")), text, None, "let no jump lead into the loop")
        for m in self.study.premises.headers.unnamed:
            self.tell_of("name", m, 0, f"no line can bound the loops of method {m}: its name holds a space or begins with #", None, "give it another name")
        self.tell_rings()
        for m in self.shown:
            if self.said[self.methods.names[m]][1].startswith("too large"):
                text = f"its number passes 64 bits ({self.methods.names[m]})"
                self.tell_of("too-large", m, 0, text, None, "the bounds of its loops within one another are too great")

    def tell_of(self, rule, m, place, text, near, cure):
        """tells of a place of a method: an error where a method that is asked for may run it"""
        (self.told.error if m in self.within else self.told.warn)(rule, text, *self.study.shown(self.methods.at(m, place)), near, cure)

    def tell_rings(self):
        """tells of each ring of methods, at the line of the first call"""
        rings = {}
        for m in sorted(self.causes):
            names = self.causes[m].split(" ")[2:]
            rings.setdefault(frozenset(names), names)
        for names in rings.values():
            first = self.methods.number[names[0]]
            target = self.methods.number[names[1 % len(names)]]
            text, near = f"recursion ({' calls '.join([*names, names[0]])})", re.escape(called(names[1 % len(names)])) + r"\s*\("
            self.tell_of("recursion", first, self.methods.call_place(first, target), text, near, "write a loop, whose turns can be bounded")

    # ---- shapes

    def shapes(self):
        """the bound of a method in all shapes: of the first that is named, of main, or of the dearest"""
        numbers = [(self.said[self.methods.names[m]][0]["value"], m) for m in self.asked]
        ending = [(value, m) for value, m in numbers if isinstance(value, int)]
        main = self.methods.number.get(f"{self.study.asked.main.replace('.', '/')}.main([Ljava/lang/String;)V")
        first = self.asked[:1] if self.study.asked.methods else [main]
        chosen = first[0] if any(m == first[0] for _, m in ending) else max(ending, default=(0, None))[1]
        if chosen is None:
            return None
        name = self.methods.names[chosen]
        answer = self.jop.call("bound", "--shapes", "--method", name, IMAGE, BOUNDS, kind="shapes")
        return {"method": name, "number": chosen, "command": answer.command, "rows": answers.shapes(answer)}


def called(name):
    """the name by which a method of this full name is called in a source"""
    return name.partition("(")[0].rpartition(".")[2]


def last_line(text):
    return text.decode("latin-1").rstrip("\n").rpartition("\n")[2]


def turns_of(text, m):
    """what a turn of each loop of a method costs at most, as its certificate says, by the place of the header"""
    read = read_certificate(text.decode("latin-1"))
    sections = [] if isinstance(read, str) else [each for each in read.sections if each.method == m]
    found = {}
    for section in sections:
        for word, header, cost, _ in section.loops:
            found[str(header // 2)] = figure(cost, f"{word} {header // 2} {cost}", f"certificates/{m}.cert")
    return found


def prices_of(text, m, path):
    """the prices of facts of a method in its certificate: what a visit of a node gives back, and from which entries of a loop on"""
    found, is_its = [], False
    for line in text.decode("latin-1").split("\n"):
        is_its = line.endswith(f" {m}") if line.startswith("section ") else is_its
        price = PRICE.fullmatch(line) if is_its else None
        if price:
            found.append({"node": price[1], "per": int(price[3]) if price[3] else None, "price": figure(int(price[2]), line, path)})
    return found
