"""All that is asked of `jop` for a record, of copies of the files that were handed in. Not proved: a tool."""
import os
import re
import shlex
import tempfile
from concurrent.futures import ThreadPoolExecutor
from contextlib import ExitStack

from . import adapting, against, answers, executive, premises, programs, refusals, runs, shared
from .calls import step
from .classes import collected, digest
from .deadlines import Deadlines
from .facts import Facts
from .folder import put
from .lengths import Lengths
from .lines import Methods
from .messages import ERROR
from .methods import Bounded

IMAGE, NOTES, BOUNDS, SIZES = "wcet.jopi", "wcet.notes", "wcet.bounds", "wcet.sizes"
# The form of a record.
FORM = 4
THREADS = min(4, os.cpu_count() or 1)


def read(folder, name):
    with open(os.path.join(folder, name), "rb") as file:
        return file.read()


class Study:
    """a program with what is found of it, in a folder that is made"""

    def __init__(self, asked, jop, told, folder):
        self.asked, self.jop, self.told, self.kept = asked, jop, told, folder
        self.folder, self.sources = folder.path, {}
        self.record = {"form": FORM, "programs": programs.used(jop), "main": asked.main, "options": asked.options}

    def run(self):
        """the record, as far as it comes"""
        with ExitStack() as self.room:
            self.take()
        if (self.classes or not self.asked.adapts) and self.link():
            self.methods = Methods(read(self.folder, IMAGE))
            self.suppose()
            self.bound()
            self.observe()
            with step("planning slots"):
                self.record["executive"] = executive.planned(self, [(each["path"], read(self.folder, each["path"])) for each in self.inputs])
            self.need()
        return self.record

    def hashed(self, name, **more):
        return {"path": name, "sha256": digest(read(self.folder, name)), **more}

    # ---- what was handed in

    def take(self):
        """copies what was handed in; sources follow where the classes are known"""
        keep, asked = self.kept.keep_file, self.asked
        classes, bounds, files = asked.classes, asked.bounds, asked.files
        if asked.adapts:
            made = self.adapt()
            classes, bounds = made.classes, [*made.bounds, *bounds]
            files = {**files, "--report": made.report} if made.report else files
        elif asked.adapted:
            adapting.taken_over(self)
        self.inputs = [keep("inputs", path) for path in asked.inputs]
        self.bounds, self.facts_given = [keep("bounds", path) for path in bounds], [keep("facts", path) for path in asked.facts]
        self.files = {name[2:]: keep(name[2:], path) for name, path in files.items()}
        self.classes, told = collected(classes, self.kept)
        if asked.adapts:
            self.kept.tell_by_copies(made.out)
        for rule, text, place in told:
            self.told.remark(rule, text, place)
        self.deadlines = Deadlines(self)
        self.record["asked"] = {"methods": self.asked.methods, "source": bool(self.asked.sources)}
        self.record["files"] = {"inputs": self.inputs, "bounds": self.bounds, "facts": self.facts_given, **self.files}
        self.record["classes"] = [each.record() for each in self.classes]

    def adapt(self):
        """adapts what was handed in; the paths of what is made are those of its copies"""
        with step("adapting"):
            return adapting.Adapted(self, self.room.enter_context(tempfile.TemporaryDirectory(prefix="jop-adapt-")))

    # ---- the image

    def link(self):
        """the image; whether there is one"""
        files = [each for each in self.classes if each.is_linked]
        with step("linking"):
            linked = self.jop.call("link", "--main", self.asked.main, *(each.place for each in files))
        if linked.status:
            refusals.tell(self, files, linked.line)
            return False
        put(self.folder, IMAGE, linked.out)
        self.record["image"] = self.hashed(IMAGE, command=f"{linked.command} > {IMAGE}", figures=answers.pairs(linked.line, linked.command))
        return True

    # ---- what is supposed

    def suppose(self):
        """sources, notes and bounds, and the loops that have none"""
        with step("reading sources and bounds"):
            self.sources = premises.sources_of(self.methods, self.asked.sources, self.kept, self.told)
            self.record["sources"] = [{"file": each.file, "path": each.path, "sha256": each.sha256} for each in self.sources.values()]
            lines = self.settle(premises.lines_of(self.sources, self.folder, self.bounds, self.told))
            text = answers.lines_of(read(self.folder, BOUNDS))
            self.premises = premises.Premises(self.jop, self.methods, lines, text)
        self.record["notes"] = self.hashed(NOTES, lines=[each.record() for each in lines])
        self.record["bounds"] = self.hashed(BOUNDS, command=f"jop headers {IMAGE} {NOTES} > {BOUNDS}")
        self.record["loops"] = self.premises.record()
        self.nest()
        with step("reading facts"):
            self.facts = Facts(self)
        self.record["facts"] = self.facts.record

    def nest(self):
        """the nodes of all loops, and which loops stand in which"""
        places = {}
        for loop in self.record["loops"]:
            places.setdefault(loop["method"], []).append(loop["place"])
        self.nodes = {name: self.methods.loops(self.methods.number[name], found) for name, found in places.items()}
        self.heads = found = shared.Loops(self.methods, self.premises.headers, self.nodes)
        shared.tell(self.premises.lines, self.sources, found, self.told)
        for loop, header in zip(self.record["loops"], self.premises.headers.loops):
            loop["back"] = sorted(set(found.back(header)) - {None})
            nodes = self.nodes[loop["method"]].get(loop["place"], ())
            loop["inner"] = [place for place in places[loop["method"]] if place != loop["place"] and (place, False) in nodes]

    def settle(self, lines):
        """the lines that are taken; the bounds are put"""
        plain = answers.Headers(self.jop.call("headers", IMAGE).lines())
        lines, answer = premises.settled(self.jop, lines, self.told, premises.Known(plain, self.methods))
        if answer.status:
            self.told.error("refused", f"{answer.command}: {answer.line}")
        put(self.folder, BOUNDS, answer.out)
        return lines

    # ---- bounds and certificates

    def bound(self):
        """each method's bound, and the certificates of those that are asked for and of all that they may run"""
        bounded = Bounded(self)
        with step(f"bounding {len(bounded.shown)} methods"), ThreadPoolExecutor(THREADS) as pool:
            self.record["methods"] = [each for each in pool.map(bounded.method, bounded.listed()) if each]
            bounded.tell()
        with step("bounding in all shapes of the cache"):
            self.record["shapes"] = bounded.shapes()
        self.record["deadlines"] = self.deadlines.record(self.record["methods"])
        earlier = against.read_earlier(self.folder, self.files.get("against"), self.told)
        self.record["against"] = None if earlier is None else against.compared(earlier, self)

    # ---- runs

    def observe(self):
        """what runs with each input do: the dearest activations, and how often loops go round"""
        self.record["runs"] = []
        by_name = {each["method"]: each for each in self.record["methods"]}
        for each in self.inputs:
            with step(f"running {self.kept.paths[each['path']]}"):
                self.observe_run(each["path"], by_name)

    def observe_run(self, path, by_name):
        data = read(self.folder, path)
        answer = self.jop.call("profile", IMAGE, BOUNDS, given=data)
        answer.command += f" < {shlex.quote(path)}"
        if answer.status not in (0, 1, 3):
            self.told.error("refused", f"{answer.command}: {answer.line}", path)
            return
        for name, figures in answers.profile(answer).items():
            if name in by_name:
                by_name[name]["seen"].append({"input": path, **figures})
        steps = self.watch(path, by_name)
        said = answers.pairs(answer.line, answer.command)
        self.record["runs"].append({"input": path, "line": answer.line, "figures": said, "steps": steps})

    def watch(self, path, by_name):
        """counts in a trace how often loops go round, places of facts are visited, and lines are run; gives the steps of it"""
        watched = runs.Watched(self.nodes, self.facts.watched())
        with open(os.path.join(self.folder, path), "rb") as given:
            steps = watched.count(self.jop.steps(IMAGE, given))
        turns = watched.turns()
        for loop in self.record["loops"]:
            if key(loop) in turns:
                loop["seen"].append({"input": path, "turns": turns[key(loop)]})
        for fact, most in watched.kept():
            fact["seen"].append({"input": path, "visits": most})
        for name, places in watched.by_method().items():
            m = self.methods.number.get(name)
            if m is not None and "visited" in by_name.get(name, ()):
                by_name[name]["visited"].append({"input": path, "lines": runs.by_line(places, lambda place, m=m: self.methods.line(m, place))})
        return steps

    # ---- memory

    def need(self):
        """how many words a run needs at most"""
        lengths = Lengths(self)
        lengths.take()

        def ask():
            return self.jop.call("memory", IMAGE, BOUNDS, SIZES)
        answer = ask()
        line = answer.lines()[0] if answer.status == 0 else answer.line
        self.record["memory"] = {"command": answer.command, "line": line, "figures": answers.pairs(line, answer.command) if answer.status == 0 else {}}
        lengths.tell(lengths.missing(answer, ask))
        self.record["sizes"], self.record["lengths"] = self.hashed(SIZES), lengths.record()
        is_told = line.startswith(("memory: missing bound", "memory: recursion", "memory: irreducible")) and self.told.count(ERROR)
        if answer.status and not is_told and not line.startswith("memory: missing size"):
            self.tell_need(line)

    def tell_need(self, line):
        """why there is no number of words, with the line of the source"""
        match = re.fullmatch(r"memory: (missing bound|recursion|irreducible|too large) ([^ \n]+)(?: (\d+))?.*", line)
        if match and match[2] in self.methods.number:
            at = self.methods.at(self.methods.number[match[2]], int(match[3] or 0))
            self.told.warn("memory", f"no memory is told: {line.partition(': ')[2]}", *self.shown(at))
        else:
            self.told.warn("memory", line)

    # ---- places

    def shown(self, at):
        """a file and a line as they are told: the file by its place in the folder where it is here"""
        if at is None:
            return None, None
        source = self.sources.get(at[0])
        return (source.path if source else at[0]), at[1]


def key(loop):
    return loop["method"], loop["place"]

