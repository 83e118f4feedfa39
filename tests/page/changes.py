"""Changes of a folder that tools/wcet made, each of which `--check` has to tell, in a folder that was moved to an empty place."""
import json
import os
import shutil

from tool import HERE, Made, differ, put

SIZES, REPORT = "plant/Tank.levels(I)[I 1 length<=4\n", "replaced plant/Tank.sum line 21: a loop by a loop\n"
BOUNDS = "plant/Tank.levels(I)[I 6 loop<=5\n"
FACTS = "plant/Tank.levels(I)[I 12 total<=4 per 6\nplant/Tank.java:20 total<=4\n"
PAGE, RECORD = "wcet.html", "wcet.json"
# How many rows there are for each case, so that cases run beside one another.
PARTS = 4


def tank(jop, folder, *words):
    """the page of a small program with all that may be handed in"""
    for name, text in (("levels", b"\x03\x01\x02\x03"), ("tank.sizes", SIZES.encode()), ("tank.report", REPORT.encode()), ("tank.bounds", BOUNDS.encode()),
                       ("tank.facts", FACTS.encode())):
        put(f"{folder}/{name}", text)
    shutil.copytree(f"{HERE}/src/plant", f"{folder}/src/plant")
    shutil.copytree(f"{HERE}/classes/plant", f"{folder}/classes/plant")
    given = ("--input", "levels", "--sizes", "tank.sizes", "--report", "tank.report", "--bounds", "tank.bounds", "--blocks", "8", "--source", "src",
             "--facts", "tank.facts", *words)
    return Made(jop, folder, "--main", "plant.Tank", *given, "classes")


class Moved:
    """a folder that was made, alone in an empty place, and what is told of it"""

    def __init__(self, jop, made, room):
        self.jop, self.room, self.out = jop, room, f"{room}/there/tank"
        shutil.copytree(made.out, self.out, symlinks=True)

    def check(self, *words):
        """the check of the folder, called in another one"""
        elsewhere = f"{self.room}/elsewhere"
        os.makedirs(elsewhere, exist_ok=True)
        return Made(self.jop, elsewhere, "--check", "../there/tank", *words)

    def path(self, name):
        return os.path.join(self.out, name)

    def text(self, name):
        with open(self.path(name), encoding="utf-8", newline="") as file:
            return file.read()


def replaced(name, old, new, count=1):
    """a text of a file in place of another one"""
    def change(moved):
        text = moved.text(name)
        assert old in text, (name, old)
        put(moved.path(name), text.replace(old, new, count).encode())
    return change


def record(change):
    """a change of the record as it is read"""
    def made(moved):
        kept = json.loads(moved.text(RECORD))
        change(kept)
        put(moved.path(RECORD), (json.dumps(kept, indent=1) + "\n").encode())
    return made


def removed(name):
    return lambda moved: os.remove(moved.path(name))


def method(kept, name):
    return next(each for each in kept["methods"] if each["method"].startswith(name))


def assign(find, name, value):
    """sets a part of the record"""
    def change(kept):
        part = find(kept)
        assert part[name] != value
        part[name] = value
    return record(change)


def dropped(find, name):
    return record(lambda kept: find(kept).pop(name))


def first_certificate(moved):
    return f"certificates/{sorted(os.listdir(moved.path('certificates')))[0]}"


def exchanged(moved):
    """two certificates, each in the other's place"""
    one, two = sorted(os.listdir(moved.path("certificates")))[:2]
    for old, new in ((one, "kept"), (two, one), ("kept", two)):
        os.rename(moved.path(f"certificates/{old}"), moved.path(f"certificates/{new}"))


def linked_elsewhere(moved):
    """a source that lies without the folder"""
    os.rename(moved.path("given/sources/plant/Tank.java"), f"{moved.room}/Tank.java")
    os.symlink(f"{moved.room}/Tank.java", moved.path("given/sources/plant/Tank.java"))


def byte(name, at):
    """a byte of a file"""
    def change(moved):
        with open(moved.path(name), "r+b") as file:
            file.seek(at, os.SEEK_END if at < 0 else os.SEEK_SET)
            old = file.read(1)
            file.seek(at, os.SEEK_END if at < 0 else os.SEEK_SET)
            file.write(bytes([old[0] ^ 1]))
    return change


def own(kept):
    return method(kept, "plant/Tank.sum")


SOURCE, INPUT, CLASS = "given/sources/plant/Tank.java", "given/inputs/levels", "given/classes/plant/Tank.class"
# Each a name, a change, and words of a line that is told.
ROWS = [
    # the page
    ("a number of the page", replaced(PAGE, '<b><data value="', '<b><data value="9'), "tank/wcet.html:"),
    ("a number as it is shown", replaced(PAGE, "</data></b><span>cycles of", "9</data></b><span>cycles of"), "tank/wcet.html:"),
    ("a line behind a number", replaced(PAGE, "plant/Tank.sum([I)I bound=", "plant/Tank.sum([I)I bound=1"), "tank/wcet.html:"),
    ("a command behind a number", replaced(PAGE, "jop bound --blocks 8 --all", "jop bound --blocks 9 --all"), "tank/wcet.html:"),
    ("a mark", replaced(PAGE, "✓ twice", "✗"), "tank/wcet.html:"),
    ("who gave a bound", replaced(PAGE, "note (given/sources", "found (given/sources"), "tank/wcet.html:"),
    ("a line of code", replaced(PAGE, ">sum<", ">sun<"), "tank/wcet.html:"),
    ("a colour of code", replaced(PAGE, '<span class="n">', '<span class="k">'), "tank/wcet.html:"),
    ("the style", replaced(PAGE, "</style>", ".bad { display: none }</style>"), "tank/wcet.html:"),
    ("a digest", replaced(PAGE, "SHA-256 is <code>", "SHA-256 is <code>0"), "tank/wcet.html:"),
    ("the machine", replaced(PAGE, '<td class="n at">8</td>', '<td class="n at">16</td>'), "tank/wcet.html:"),
    ("the end of the page", replaced(PAGE, "</html>", ""), "tank/wcet.html:"),
    # the record
    ("a bound", assign(lambda kept: own(kept)["bound"], "value", 7), "methods plant/Tank.sum([I)I bound: recorded 7, found "),
    ("the line of a bound", assign(lambda kept: own(kept)["bound"], "line", "plant/Tank.sum([I)I bound=7"), "bound line: recorded plant/Tank.sum([I)I bound=7"),
    ("the command of a bound", assign(lambda kept: own(kept)["bound"], "command", "jop bound --all wcet.jopi wcet.bounds"), "bound command: recorded"),
    ("a check that isn't made", record(lambda kept: own(kept)["checks"].pop()), "checks"),
    ("the line of a check", assign(lambda kept: own(kept)["checks"][0], "line", "holds"), "checks"),
    ("checked", assign(own, "checked", False), "checked: recorded false, found true"),
    ("the report of a method", record(lambda kept: own(kept)["report"]["rows"].pop()), "report rows"),
    ("visits", assign(lambda kept: own(kept)["report"]["rows"][0]["visits"], "value", 99), "visits: recorded 99"),
    ("lines with what they call", assign(lambda kept: own(kept)["together"][0], "cycles", 1), "together"),
    ("lines that a run visited", record(lambda kept: own(kept)["visited"].clear()), "visited"),
    ("a call", record(lambda kept: method(kept, "plant/Tank.main")["calls"].pop()), "calls"),
    ("the line of a method", assign(own, "line", 1), "line: recorded 1"),
    ("a method", record(lambda kept: kept["methods"].remove(own(kept))), "plant/Tank.sum([I)I: recorded nothing"),
    ("the dearest call", assign(lambda kept: own(kept)["seen"][0]["greatest"], "value", 1), "greatest: recorded 1"),
    ("what a turn costs", assign(lambda kept: next(iter(own(kept)["turns"].values())), "value", 1), "turns"),
    ("the bound of a loop", assign(lambda kept: kept["loops"][1]["bound"], "value", 3), "bound: recorded 3, found 4"),
    ("who gives it", assign(lambda kept: kept["loops"][1]["by"][0], "by", "found"), "loops"),
    ("turns that were seen", assign(lambda kept: kept["loops"][1]["seen"][0], "turns", 1), "turns: recorded 1, found 3"),
    ("a loop", record(lambda kept: kept["loops"].pop()), "loops"),
    ("a shape", assign(lambda kept: kept["shapes"]["rows"][40]["bound"], "value", 1), "shapes"),
    ("the memory", assign(lambda kept: kept["memory"]["figures"]["heap"], "value", 1), "heap: recorded 1"),
    ("the line of the memory", assign(lambda kept: kept["memory"], "line", "memory stack=1 image=1 heap=1"), "memory line"),
    ("the end of a run", assign(lambda kept: kept["runs"][0], "line", "ended cycles=1 hits=1 misses=1"), "runs"),
    ("steps", assign(lambda kept: kept["runs"][0], "steps", 1), "steps: recorded 1"),
    ("a run", record(lambda kept: kept["runs"].clear()), "runs"),
    ("the version of jop", assign(lambda kept: kept["programs"]["jop"], "version", "jop 0.0.1"), "error: made by another jop: version recorded jop 0.0.1"),
    ("no version of jop", dropped(lambda kept: kept["programs"]["jop"], "version"), "programs jop version: recorded nothing"),
    ("no programs", dropped(lambda kept: kept, "programs"), "programs"),
    ("the digest of jop", assign(lambda kept: kept["programs"]["jop"], "sha256", "0"), "warning: made by another jop: sha256 recorded 0"),
    ("the digest of the tools", assign(lambda kept: kept["programs"]["tools/wcet"], "sha256", "0"), "warning: made by another tools/wcet"),
    ("the version of Python", assign(lambda kept: kept["programs"]["Python"], "version", "3.10"), "warning: made by another Python"),
    ("an option", assign(lambda kept: kept["options"], "--blocks", 16), "made anew"),
    ("an option as a string", assign(lambda kept: kept["options"], "--blocks", "8"), "option --blocks: '8' is no number"),
    ("an option that isn't one", assign(lambda kept: kept, "options", {"--blocks": 8, "--jop": 1}), "option --jop"),
    ("an option out of range", assign(lambda kept: kept["options"], "--blocks", 257), "option --blocks"),
    ("no options", dropped(lambda kept: kept["options"], "--blocks"), "made anew"),
    ("the main class", assign(lambda kept: kept, "main", "plant.Range"), "--main plant/Range: the class has no public static void main(String[])"),
    ("methods that are asked for", assign(lambda kept: kept["asked"], "methods", ["plant/Range.least(II)I"]), "asked"),
    ("sources that aren't asked for", assign(lambda kept: kept["asked"], "source", False), "sources"),
    ("the status", assign(lambda kept: kept, "status", 1), "status: recorded 1, found 0"),
    ("a note", assign(lambda kept: kept["notes"]["lines"][0], "text", "plant/Tank.java:11 loop<=9"), "notes"),
    ("the digest of the image", assign(lambda kept: kept["image"], "sha256", "0"), "tank/wcet.jopi: error: not the file of the record"),
    ("the command of the image", assign(lambda kept: kept["image"], "command", "jop link"), "image command: recorded jop link"),
    ("figures of the image", assign(lambda kept: kept["image"]["figures"]["words"], "value", 1), "image figures words: recorded 1"),
    ("the digest of a certificate", assign(lambda kept: own(kept)["certificate"], "sha256", "0"), "not the file of the record"),
    ("the last line of a certificate", assign(lambda kept: own(kept)["certificate"], "line", "bound 1"), "certificate line: recorded bound 1"),
    ("a class", record(lambda kept: kept["classes"].pop()), "no file of the record"),
    ("the order of classes", record(lambda kept: kept["classes"].reverse()), "classes"),
    ("no report", dropped(lambda kept: kept["files"], "report"), "given/report/tank.report"),
    ("no sizes", dropped(lambda kept: kept["files"], "sizes"), "array without a greatest length"),
    ("a file that leads out of the folder", assign(lambda kept: kept["files"]["report"], "path", "../../elsewhere/../../levels"), "not found"),
    ("the form", assign(lambda kept: kept, "form", 1), "a record of form 1, and not of form 4"),
    ("no form", assign(lambda kept: kept, "form", "4"), "no record of a program that was bounded"),
    ("a main class that is no name", assign(lambda kept: kept, "main", "plant.Tank\0"), "names of a main class and of methods are wanted"),
    ("sources that are none", assign(lambda kept: kept, "sources", 3), "lists of files are wanted"),
    ("no record", lambda moved: put(moved.path(RECORD), b"[]"), "no record of a program that was bounded"),
    ("half a record", lambda moved: put(moved.path(RECORD), moved.text(RECORD)[:5000].encode()), "no record of a program that was bounded"),
    ("more in the record", record(lambda kept: kept.update(more=1)), "more: recorded 1, found nothing"),
    # what was made
    ("a note that is lowered beside its source", replaced("wcet.notes", "loop<=4", "loop<=3"), "tank/wcet.notes:1:26: error: not what is made anew, `plant/Tank.java:11 loop<=4`"),
    ("a bound that is lowered", replaced("wcet.bounds", "loop<=4", "loop<=3"), "tank/wcet.bounds:"),
    ("a comment of the bounds", replaced("wcet.bounds", "# plant/Tank.java:11", "# plant/Tank.java:12"), "tank/wcet.bounds:1:"),
    ("sizes", replaced("wcet.sizes", "<=4", "<=3"), "tank/wcet.sizes:1:"),
    ("a certificate", lambda moved: replaced(first_certificate(moved), "node 0 ", "node 0 1")(moved), "tank/certificates/"),
    ("two certificates", exchanged, "tank/certificates/"),
    ("a word of the image", byte("wcet.jopi", 100), "tank/wcet.jopi: error: not the file that is made anew"),
    # what was handed in
    ("a note of a source", replaced(SOURCE, "loop=4", "loop=3"), "tank/given/sources/plant/Tank.java: error: not the file of the record"),
    ("a space of a source", replaced(SOURCE, "int sum = 0", "int  sum = 0"), "tank/given/sources/plant/Tank.java: error: not the file of the record"),
    ("a source that lies elsewhere", linked_elsewhere, "tank/given/sources/plant/Tank.java"),
    ("an input", byte(INPUT, 1), "tank/given/inputs/levels: error: not the file of the record"),
    ("a class file", byte(CLASS, -1), "tank/given/classes/plant/Tank.class: error: not the file of the record"),
    ("bounds", replaced("given/bounds/tank.bounds", "5", "3"), "tank/given/bounds/tank.bounds: error: not the file of the record"),
    ("lengths", replaced("given/sizes/tank.sizes", "<=4", "<=3"), "tank/given/sizes/tank.sizes: error: not the file of the record"),
    ("what adapt told", replaced("given/report/tank.report", "a loop", "nothing"), "tank/given/report/tank.report: error: not the file of the record"),
    # files that come and go
    *((f"without {name}", removed(name), f"tank/{name}: error: not found")
      for name in (PAGE, "wcet.jopi", "wcet.notes", "wcet.bounds", "wcet.sizes", SOURCE, INPUT, CLASS, "given/bounds/tank.bounds", "given/sizes/tank.sizes",
                   "given/report/tank.report", "given/classes/plant/Range.class")),
    ("without a certificate", lambda moved: removed(first_certificate(moved))(moved), ".cert: error: not found"),
    ("without certificates", lambda moved: shutil.rmtree(moved.path("certificates")), ".cert: error: not found"),
    ("without a record", removed(RECORD), "wcet.json: No such file or directory"),
]
# Of facts.
FACT_ROWS = [
    ("a number by facts on the page", replaced(PAGE, "</data></b><span>cycles of main at most, by", "9</data></b><span>cycles of main at most, by"), "tank/wcet.html:"),
    ("who gave a fact", replaced(PAGE, "file (given/facts/tank.facts:1)", "file (given/facts/tank.facts:2)"), "tank/wcet.html:"),
    ("a number by facts", assign(lambda kept: own(kept)["by_facts"]["bound"], "value", 7), "by_facts bound: recorded 7, found "),
    ("checked by facts", assign(lambda kept: own(kept)["by_facts"], "checked", False), "by_facts checked: recorded false, found true"),
    ("a check by facts", record(lambda kept: own(kept)["by_facts"]["checks"].pop()), "by_facts checks"),
    ("prices", record(lambda kept: method(kept, "plant/Tank.levels")["by_facts"]["prices"].clear()), "by_facts prices"),
    ("the digest of a certificate by facts", assign(lambda kept: own(kept)["by_facts"]["certificate"], "sha256", "0"), "not the file of the record"),
    ("no number by facts", record(lambda kept: own(kept).pop("by_facts")), "by_facts: recorded nothing"),
    ("a fact", assign(lambda kept: kept["facts"]["lines"][0]["most"], "value", 3), "most: recorded 3, found 4"),
    ("who gives it", assign(lambda kept: kept["facts"]["lines"][0]["by"][0], "line", 2), "by file line: recorded 2, found 1"),
    ("visits that were seen", assign(lambda kept: kept["facts"]["lines"][0]["seen"][0], "visits", 1), "visits: recorded 1, found 3"),
    ("no facts", assign(lambda kept: kept, "facts", None), "facts: recorded nothing"),
    ("no file of facts", assign(lambda kept: kept["files"], "facts", []), "tank/given/facts/tank.facts"),
    ("files of facts that are none", dropped(lambda kept: kept["files"], "facts"), "lists of files are wanted"),
    ("the text of facts", replaced("wcet.facts", "total<=4", "total<=3"), "tank/wcet.facts:"),
    ("facts that were handed in", replaced("given/facts/tank.facts", "total<=4", "total<=3"), "tank/given/facts/tank.facts: error: not the file of the record"),
    ("without the text of facts", removed("wcet.facts"), "tank/wcet.facts: error: not found"),
    ("without facts that were handed in", removed("given/facts/tank.facts"), "tank/given/facts/tank.facts: error: not found"),
    ("without a certificate by facts", lambda moved: removed(f"certificates/{next(name for name in os.listdir(moved.path('certificates')) if 'facts' in name)}")(moved),
     "-facts.cert: error: not found"),
]


def told_of(jop, folder, rows):
    """what isn't told of some changes"""
    made = tank(jop, folder)
    yield from differ("status", (0, []), (made.status, made.told))
    for number, (name, change, wanted) in enumerate(rows):
        moved = Moved(jop, made, f"{folder}/{number}")
        change(moved)
        checked = moved.check()
        if checked.status not in (1, 2) or "Traceback (most recent call last):" in checked.told or not any(wanted in line for line in checked.told):
            yield f"{name}: status {checked.status}, `{wanted}` isn't told: {checked.told}"
        shutil.rmtree(moved.room)
