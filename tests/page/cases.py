"""The cases of tests/wcet: each yields what is wrong."""
import json
import os
import re
import shutil
import subprocess
import sys
import zipfile

import analysis
import tables
from rechecker import names
from rechecker.class_files import read_class
from wcet_page import initialisers, notes, shared

import browser
import build
import changes
import visits
from tool import CONTROLLER, HERE, TOP, Made, differ, page_faults, put

FAULTS = [
    "Faults.java:11:9: error: loop without a bound (Faults.sum()I 6)",
    "Faults.java:20:56: error: misspelt note `@WCA lop=8`: write `@WCA loop=N` or `@ loop <= N`",
    "Faults.java:20:9: error: loop without a bound (Faults.first([I)I 2)",
    "Faults.java:27:34: error: stale note: no loop Faults.java:27; the nearest loop is headed at line 20",
    "Faults.java:33:26: error: recursion (Faults.even(I)Z calls Faults.odd(I)Z calls Faults.even(I)Z)",
    "Faults.java:46:28: error: a note of a loop with several entries, which no number bounds: Faults.java:46",
    "Faults.java:46:9: error: loop with several entries (Faults.knot(I)I 9 23)",
    "Faults.java:57:9: warning: loop without a bound (Faults.spare(I)I 0)",
    "7 errors, 1 warning",
]


def copied_controller(folder):
    """a copy of the controller's sources, class files and samples"""
    for name in os.listdir(CONTROLLER):
        if name.endswith(".java") or name == "samples":
            shutil.copy(f"{CONTROLLER}/{name}", folder)
    shutil.copytree(f"{CONTROLLER}/classes", f"{folder}/classes")


def controller_made(jop, folder, *words):
    copied_controller(folder)
    return Made(jop, folder, "--main", "Main", "--source", ".", "--input", "samples", *words, "classes")


def program(folder, title):
    """the class files of a program of javac in the tables, in a folder, and its main class"""
    _, main, reference = next(each for each in tables.javac_programs() if each[0] == title)
    for data in analysis.program_of(" ".join(["program", title, main, *reference]))[2]:
        put(f"{folder}/classes/{read_class(data).name.decode()}.class", data)
    return main


# ---- pages

def controller(jop, folder):
    """the controller: each figure is that of its line, and all methods are bounded"""
    made = controller_made(jop, folder)
    yield from differ("status", 0, made.status)
    yield from differ("told", [], made.told)
    yield from differ("said", "12 of 12 methods have a bound that was checked twice: out/wcet.html", made.said)
    yield from page_faults(made)
    every = made.said_anew("jop bound --all wcet.jopi wcet.bounds")
    shown = {line for _, line, command in made.page().figures if command == "jop bound --all wcet.jopi wcet.bounds"}
    yield from differ("bounds that the page lacks", set(), set(every) - shown)
    yield from differ("turns that were seen", {12, 2, 4}, {each["turns"] for loop in made.record()["loops"] for each in loop["seen"]})


def options(jop, folder):
    """another machine, and a method that is asked for"""
    made = controller_made(jop, folder, "--blocks", "2", "--read", "3", "--cycles", "5000", "--method", "Mean.step(I)I")
    yield from differ("status", 0, made.status)
    yield from page_faults(made)
    commands = {each["command"] for method in made.record()["methods"] for each in method.get("checks", [])}
    yield from differ("the options of checks", True, all(" --blocks 2 --read 3 " in each for each in commands) and bool(commands))
    yield from differ("the run", "spent", made.record()["runs"][0]["line"].split(" ")[0])


def two_inputs(jop, folder):
    """of several inputs the dearest call of all is shown"""
    put(f"{folder}/short", b"\x01")
    made = controller_made(jop, folder, "--input", "short")
    yield from differ("status", 0, made.status)
    yield from differ("the dearest of both", True, "113,813cycles of main, dearest seen" in made.page().text().replace(" cycles", "cycles"))
    yield from page_faults(made)


def same_twice(jop, folder):
    """the same call leaves the same bytes"""
    first = controller_made(jop, folder)
    texts = [first.text(name) for name in ("wcet.json", "wcet.html", "wcet.bounds")]
    second = Made(jop, folder, "--main", "Main", "--source", ".", "--input", "samples", "classes", out="again")
    yield from differ("the same bytes", True, texts == [second.text(name) for name in ("wcet.json", "wcet.html", "wcet.bounds")])


def starting(jop, folder):
    """initialisers that use one another's fields: each class stands behind those that its initialiser uses"""
    made = Made(jop, folder, "--main", program(folder, "Starting"), "--source", f"{TOP}/tests/expected/programs", "classes")
    yield from differ("the order", ["Starting$One", "Starting$Two", "Starting$Three", "Starting"], [each["name"] for each in made.record()["classes"]])
    yield from differ("told", ["Starting.java:15:13: error: loop without a bound (Starting$Two.<clinit>()V 11)", "1 error"],
                      [line.replace(f"{TOP}/tests/expected/programs/", "") for line in made.heads()])
    yield from differ("status", 1, made.status)
    put(f"{folder}/more", b"# by a file\nStarting.java:15 loop<=3\n")
    made = Made(jop, folder, "--main", "Starting", "--source", f"{TOP}/tests/expected/programs", "--bounds", "more", "classes")
    yield from differ("status with a file of bounds", 0, made.status)
    yield from differ("who gave the bound", [("file", "given/bounds/more", 2)], [(each["by"], each["file"], each["line"]) for each in made.record()["loops"][0]["by"]])
    yield from page_faults(made)


def promised(jop, folder):
    """the bounds of a program that tools/adapt wrote: what a line stands on stands beside it, and a line without such a comment has none"""
    with zipfile.ZipFile(f"{TOP}/tests/adapt/adapted/Labels.zip") as packed:
        packed.extractall(folder)
    with open(f"{folder}/files", encoding="utf-8") as file:
        classes = file.read().split()
    with open(f"{folder}/bounds", encoding="utf-8") as file:
        rows = file.read().splitlines()
    wanted = {number: before.partition(": ")[2] or None for number, (before, row) in enumerate(zip(["", *rows], rows), 1) if not row.startswith("#")}
    made = Made(jop, folder, "--main", "Labels", "--method", "Labels.label(Ljop/Text;Ljop/Text;)I", "--bounds", "bounds", *classes)
    came = {each["line"]: each["promise"] for loop in made.record()["loops"] for each in loop["by"] if each["by"] == "file"}
    yield from differ("promises of a file", wanted, came)
    yield from differ("both kinds", {None, "at most 2560 elements", "at most 32 tries"}, set(came.values()))
    yield from page_faults(made)
    text = made.page().text()
    yield from differ("the library's methods apart", True, "methods of the library's classes" in text)
    for number, promise in wanted.items():
        shown = re.search(rf"file \(given/bounds/bounds:{number}\)(?:, promise: (at most \d+ \w+))?", text)
        yield from differ(f"what is shown of line {number}", promise, shown and shown[1])


def longs(jop, folder):
    """a program of javac of which no source is at hand"""
    made = Made(jop, folder, "--main", program(folder, "Longs"), "classes")
    yield from page_faults(made)
    yield from differ("loops without a bound are told", made.status, int(any("loop without a bound" in line for line in made.told)))


# ---- what lacks

def faults(jop, folder):
    """unbounded, misspelt, stale, recursive and irreducible: all at once, each with its line"""
    shutil.copytree(f"{HERE}/src", folder, dirs_exist_ok=True)
    made = Made(jop, folder, "--main", "Faults", "--source", ".", f"{HERE}/classes/Faults.class", f"{HERE}/classes/plant/Valve.class")
    yield from differ("told", FAULTS, made.heads())
    yield from differ("status", 1, made.status)
    yield from page_faults(made)
    text = made.page().text()
    yield from (f"the page doesn't say {line}" for line in FAULTS[:-1] if line not in text)
    yield from differ("escaped", True, "steps[step] < by && by > 0 ? 1 : 0" in text)


NESTED = [
    "Nested.java:8:35: error: one note for two loops: `do` of line 7 and `while` of line 8 begin at one instruction (Nested.waits(I)V 0), to which "
    "control goes back from lines 9 and 13",
    "Nested.java:19:49: error: one note for two loops, one within the other: Nested.counts(I)V 0 and 4 are both headed at line 19",
    "Nested.java:30:35: error: one note for two loops: `while` of line 29 and `while` of line 30 begin at one instruction (Nested.polls(I)V 0), to which "
    "control goes back from lines 31 and 34",
    "Nested.java:45:35: error: one note for two loops: `while` of line 44 and `while` of line 45 begin at one instruction (Nested.spins(I)V 0), to which "
    "control goes back from lines 46 and 49",
    "4 errors",
]


def two_loops(jop, folder):
    """one note for two loops, one within the other: at one header, or on one line; and notes that are no such ones"""
    made = Made(jop, folder, "--main", "Nested", "--source", f"{HERE}/src", f"{HERE}/classes/Nested.class")
    yield from differ("told", (1, NESTED), (made.status, [line.replace(f"{HERE}/src/", "") for line in made.heads()]))
    put(f"{folder}/nested.notes", b"Nested.java:8 loop<=3\nNested.java:19 loop<=3\nNested.java:30 loop<=3\nNested.java:45 loop<=3\n")
    made = Made(jop, folder, "--main", "Nested", "--bounds", "nested.notes", f"{HERE}/classes/Nested.class")
    yield from differ("told without a source", (1, ["warning", "error", "warning", "warning", "1 error, 3 warnings"]),
                      (made.status, [line.split(" ")[1].rstrip(":") if ":" in line else line for line in made.heads()]))
    made = Made(jop, folder, "--main", "Single", "--source", f"{HERE}/src", f"{HERE}/classes/Single.class")
    yield from differ("told of single loops", (0, []), (made.status, made.told))


def heads_of_loops(jop, folder):
    """which heads of a source begin together, and at which lines"""
    found = [([head.word for head in heads], lines) for heads, lines in shared.Java(HEADS).together()]
    wanted = [(["do", "while"], (2, 2)), (["for", "while", "do"], (7, 7)), (["while", "do"], (7, 7)), (["do", "do"], (10, 10)), (["do", "while"], (11, 12)),
              (["do", "do"], (16, 16))]
    yield from differ("heads", wanted, found)


HEADS = """do {
    while (c) { a("do {"); }
} while (d);
for (int i = 0; ; i++) { // while (c)
    while (true) { one:
    {   do
        x++; while (i < 3); }
    }
}
do { /* */ do i++; while (i < 9);
} while (c); if (c) { do { while (a ||
    b) while (c) x++; } while (d); }
for (int each : all) do { for (int i = 0; i < 3; i++) while (c) ; } while (c);
while (a) while (b) { do { y = '{'; do x--; while (x > 3); } while (x > 0); }
for (;;) for (int i = 0; i < 3; i++) { }
do do x++; while (c); while (d);
while (true) { x(); do { } while (c); }
"""


def broken(jop, folder):
    """an input that goes round a loop more often than its note says"""
    copied_controller(folder)
    with open(f"{folder}/samples", "ab") as file:
        file.write(b"\x01")
    made = Made(jop, folder, "--main", "Main", "--source", ".", "--input", "samples", "classes")
    wanted = "Main.java:11:9: error: with given/inputs/samples the loop goes round 13 times, more than its bound 12 (Main.main([Ljava/lang/String;)V 4)"
    yield from differ("told", [wanted, "1 error"], made.heads())
    yield from differ("status", 1, made.status)
    yield from differ("the page", True, "✗ broken" in made.page().text())


def refused(jop, folder):
    """what `link` and the cache refuse is told and drawn"""
    copied_controller(folder)
    os.remove(f"{folder}/classes/Overload.class")
    made = Made(jop, folder, "--main", "Main", "classes")
    yield from differ("told", ["classes/Gain.class: error: class Overload isn't there (step(I)I, line 14)", "  hand in its class file", "1 error"], made.told)
    yield from differ("status", 1, made.status)
    yield from made.page().faults
    shutil.copy(f"{CONTROLLER}/classes/Overload.class", f"{folder}/classes")
    made = Made(jop, folder, "--main", "Main", "--source", ".", "--blocks", "1", "--block-words", "4", "classes")
    wanted = "Gain.java:12:9: error: jop bound --blocks 1 --block-words 4 --all wcet.jopi wcet.bounds: method too long Gain.step(I)I blocks=2 limit=1"
    yield from differ("told", [wanted, "1 error"], made.heads())
    yield from made.page().faults


SIZES_TOLD = """Sizes.java:8:25: warning: array without a greatest length, so no memory is told (Sizes.second(I)[Ljava/lang/Object; 1)
        Object[] made = new Object[count];
                        ^
  say how long the array is at most: `// @WCA length=N`
Sizes.java:9:19: warning: array without a greatest length, so no memory is told (Sizes.second(I)[Ljava/lang/Object; 10)
        made[0] = new byte[2 * count];
                  ^
  say how long the array is at most: `// @WCA length=N`
Sizes.java:14:62: error: stale note: no array is made at line 14; the nearest is made at line 9
        jop.Io.write(first(2).length + second(2).length); // @WCA length=9
                                                             ^
  write it on the line of the `new`
1 error, 2 warnings"""


def lengths(jop, folder):
    """arrays without a greatest length are told all at once, as a compiler does; notes and a file give them"""
    shutil.copy(f"{HERE}/src/Sizes.java", folder)
    made = Made(jop, folder, "--main", "Sizes", "--source", ".", f"{HERE}/classes/Sizes.class")
    yield from differ("told", (1, SIZES_TOLD.split("\n")), (made.status, made.told))
    text = source_of_sizes(folder).replace("; // @WCA length=9", ";").replace("new Object[count];", "new Object[count]; //@ length <= 4")
    put(f"{folder}/Sizes.java", text.encode())
    put(f"{folder}/more", b"# by hand\nSizes.second(I)[Ljava/lang/Object; 10 length<=8\nSizes.first(I)[I 1 length<=2\n")
    made = Made(jop, folder, "--main", "Sizes", "--source", ".", "--sizes", "more", f"{HERE}/classes/Sizes.class")
    yield from differ("given", (0, []), (made.status, made.told))
    yield from page_faults(made)
    yield from differ("who gave them", [("Sizes.java", 4, 2, ["note", "file"]), ("Sizes.java", 8, 4, ["note"]), ("Sizes.java", 9, 8, ["file"])],
                      [(each["file"], each["line"], each["length"]["value"], [giver["by"] for giver in each["by"]]) for each in made.record()["lengths"]])
    put(f"{folder}/more", b"Sizes.first(I)[I 1 length<=-2\n")
    made = Made(jop, folder, "--main", "Sizes", "--source", ".", "--sizes", "more", f"{HERE}/classes/Sizes.class")
    yield from differ("no line", "more:1:1: error: no line of lengths: `Sizes.first(I)[I 1 length<=-2`", next(line for line in made.told if "no line" in line))


def source_of_sizes(folder):
    with open(f"{folder}/Sizes.java", encoding="utf-8") as file:
        return file.read()


def link_refused(jop, folder):
    """what `link` refuses is told at the line of the source, with what to do"""
    def told(*words):
        made = Made(jop, folder, *words)
        yield made.status
        yield from (line.replace(f"{HERE}/", "") for line in made.told if line != "1 error")
    scale = f"{HERE}/classes/Scale.class"
    wanted = ["src/Scale.java:5:13: error: long multiplication (scaled(JJ)J)", "            return value", "            ^", "  tools/adapt replaces it"]
    came = list(told("--main", "Scale", "--source", f"{HERE}/src", scale))
    yield from differ("a product of longs", [1, *wanted], came)
    yield from differ("without a source", [1, "classes/Scale.class: error: long multiplication (scaled(JJ)J, line 5)", "  tools/adapt replaces it"], list(told("--main", "Scale", scale)))
    with open(f"{HERE}/classes/Sizes.class", "rb") as file:
        put(f"{folder}/Sizes.class", (lambda data: data[:6] + b"\0=" + data[8:])(file.read()))
    yield from differ("javac 17", [1, "Sizes.class: error: class file of Java 17", "  compile it by javac --release 8, or hand it to tools/adapt"], list(told("--main", "Sizes", "Sizes.class")))
    tank = f"{HERE}/classes/plant/Tank.class"
    yield from differ("a class that isn't there", [1, f"src/plant/Tank.java:26:29: error: class plant/Range isn't there (main([Ljava/lang/String;)V)",
                                                  "        Io.write(sum(levels(Range.least(Io.read(), MOST))));", " " * 28 + "^", "  hand in its class file"],
                      list(told("--main", "plant.Tank", "--source", f"{HERE}/src", tank)))
    classes = f"{HERE}/classes/plant"
    yield from differ("another main", [1, "wcet: error: --main plant/Tanks: no class of this name is handed in; is plant/Tank meant?", "  main is that of plant/Tank"],
                      list(told("--main", "plant.Tanks", classes)))
    yield from differ("no main", [1, "wcet: error: --main plant/Valve: the class has no public static void main(String[])", "  main is that of plant/Tank"],
                      list(told("--main", "plant.Valve", classes)))


def misled(jop, folder):
    """another folder of sources, another method, another option"""
    words = ["--main", "plant.Tank", f"{HERE}/classes/plant/Tank.class", f"{HERE}/classes/plant/Range.class"]
    made = Made(jop, folder, "--source", f"{HERE}/src/plant", *words)
    told = [line.replace(f"{HERE}/", "") for line in made.told]
    wanted = ["wcet: error: --source src/plant: none of the sources is there (plant/Tank.java)", "  name the folder in which the packages begin: --source src"]
    yield from differ("too deep", [], [line for line in wanted if line not in told])
    made = Made(jop, folder, "--source", HERE, *words)
    yield from differ("too high", True, f"  name the folder in which the packages begin: --source {HERE}/src" in made.told)
    made = Made(jop, folder, "--source", f"{HERE}/src", "--method", "plant/Tank.sun([I)I", *words)
    yield from differ("a method", True, "wcet: error: no method plant/Tank.sun([I)I; is plant/Tank.sum([I)I meant?" in made.told)
    ran = subprocess.run([f"{TOP}/tools/wcet", "--sources", "."], capture_output=True, text=True, check=False)
    yield from differ("an option", (2, "wcet: no option --sources; is --source meant?; tools/wcet --help says how it is used\n"), (ran.returncode, ran.stderr))


def interchange(jop, folder):
    """what is told, as editors and code hosts read it"""
    shutil.copy(f"{HERE}/src/Sizes.java", folder)
    Made(jop, folder, "--main", "Sizes", "--source", ".", "--sarif", "told.sarif", f"{HERE}/classes/Sizes.class")
    with open(f"{folder}/told.sarif", encoding="utf-8") as file:
        log = json.load(file)
    run = log["runs"][0]
    yield from differ("the form", ("2.1.0", 1, "tools/wcet"), (log["version"], len(log["runs"]), run["tool"]["driver"]["name"]))
    yield from differ("the rules", {each["ruleId"] for each in run["results"]}, {each["id"] for each in run["tool"]["driver"]["rules"]})
    places = [each["locations"][0]["physicalLocation"] for each in run["results"]]
    yield from differ("the places", [("warning", "Sizes.java", 8, 25), ("warning", "Sizes.java", 9, 19), ("error", "Sizes.java", 14, 62)],
                      [(each["level"], place["artifactLocation"]["uri"], *place["region"].values()) for each, place in zip(run["results"], places)])


def unfinished(jop, folder):
    """what lacks stays unfinished: the page that was made before stays as it was, and a page that is there is never one of a call that failed"""
    made = controller_made(jop, folder)
    before = contents(made.out)
    with open(f"{folder}/Mean.java", encoding="utf-8") as file:
        text = file.read()
    put(f"{folder}/Mean.java", text.replace("//@WCA loop=4", "").encode())
    for _ in range(2):
        failed = Made(jop, folder, "--main", "Main", "--source", ".", "--input", "samples", "classes")
        yield from differ("failed", (1, "9 of 12 methods have a bound that was checked twice: out/unfinished/wcet.html"), (failed.status, failed.said))
        kept = {name: data for name, data in contents(made.out).items() if not name.startswith("unfinished/")}
        yield from differ("as before", True, kept == before)
    put(f"{folder}/Mean.java", text.encode())
    Made(jop, folder, "--main", "Main", "--source", ".", "--input", "samples", "classes")
    yield from differ("whole again", True, contents(made.out) == before)
    os.rename(f"{folder}/out", f"{folder}/given")
    ran = Made(jop, folder, "--main", "Main", "classes", out=".")
    yield from differ("a folder of other things", (2, True), (ran.status, "given isn't one of a record" in ran.told[0]))


def makefile(jop, folder):
    """the example's makefile: from the sources it makes a page, fails as often as it is called while a deadline is missed or a note lacks, and passes
    behind that; without javac it makes the page of the class files that are there"""
    if not shutil.which("make"):
        yield "skipped makefile: make is missing (apt-get install make)"
        return
    shutil.copytree(CONTROLLER, f"{folder}/controller", ignore=shutil.ignore_patterns("wcet", "own", "host"))

    def made(target="wcet/wcet.html" if shutil.which("javac") else "page"):
        words = ["make", f"WCET={TOP}/tools/wcet --jop {jop}", target]
        return subprocess.run(words, cwd=f"{folder}/controller", capture_output=True, text=True, check=False)
    ran = made()
    yield from differ("made", (0, True), (ran.returncode, os.path.isfile(f"{folder}/controller/wcet/wcet.html")))
    yield from differ("of the class files", 0, made("page").returncode)
    if shutil.which("javac"):
        yield from differ("nothing to do", True, "up to date" in made().stdout)
        with open(f"{folder}/controller/Main.java", encoding="utf-8") as file:
            source = file.read()
        for edited, status in ((source.replace("//@WCA loop=12", ""), 2), (source, 0)):
            put(f"{folder}/controller/Main.java", edited.encode())
            os.utime(f"{folder}/controller/Main.java", (os.path.getmtime(f"{folder}/controller/own/compiled") + 2,) * 2)
            yield from differ("a source that was edited", status, made().returncode)
    with open(f"{folder}/controller/deadlines", encoding="utf-8") as file:
        text = file.read()
    later = os.path.getmtime(f"{folder}/controller/wcet/wcet.html") + 2
    for deadline, status in (("10000", 2), ("10000", 2), ("12000", 0)):
        put(f"{folder}/controller/deadlines", text.replace("12000", deadline).encode())
        os.utime(f"{folder}/controller/deadlines", (later, later))
        yield from differ(f"a deadline of {deadline}", status, made().returncode)


def executive_makefile(jop, folder):
    """the makefile of the executive: it plans the slots, puts them on the page, and leaves no plan where a slot may be late"""
    if not shutil.which("make"):
        yield "skipped executive_makefile: make is missing (apt-get install make)"
        return
    for name in ("controller", "executive"):
        shutil.copytree(f"{TOP}/examples/{name}", f"{folder}/{name}", ignore=shutil.ignore_patterns("wcet", "own", "host"))

    def made(target):
        words = ["make", f"WCET={TOP}/tools/wcet --jop {jop}", target]
        paths = {**os.environ, "PATH": f"{os.path.dirname(jop)}:{os.environ['PATH']}"}
        return subprocess.run(words, cwd=f"{folder}/executive", capture_output=True, text=True, check=False, env=paths).returncode
    yield from differ("made", 0, made("wcet/wcet.html"))
    with open(f"{folder}/executive/wcet/wcet.json", encoding="utf-8") as file:
        yield from differ("slots", [True] * 3, [each["kept"] for each in json.load(file)["executive"]["slots"]])
    with open(f"{folder}/executive/slots.plan", encoding="utf-8") as file:
        yield from differ("the plan", 3, len(file.read().splitlines()))
    with open(f"{folder}/executive/slots.table", encoding="utf-8") as file:
        text = file.read()
    later = os.path.getmtime(f"{folder}/executive/slots.plan") + 2
    for table, status in ((text.replace("36000", "30000"), 2), (text.replace("36000", "30000"), 2), (text, 0)):
        put(f"{folder}/executive/slots.table", table.encode())
        os.utime(f"{folder}/executive/slots.table", (later, later))
        came = made("slots.plan")
        yield from differ("a plan", (status, not status), (came, os.path.isfile(f"{folder}/executive/slots.plan")))


def deadlines(jop, folder):
    """deadlines that bounds keep, and each that they don't"""
    put(f"{folder}/due", b"# cycles\n\nMean.step(I)I 10632\nMain.output(I)I 40000\n")
    made = controller_made(jop, folder, "--deadlines", "due")
    yield from differ("kept", (0, []), (made.status, made.told))
    yield from differ("on the page", True, "10,632 10,304 10,632 9,760" in made.page().text())
    yield from page_faults(made)
    put(f"{folder}/due", b"Mean.step(I)I 10303\nMain.output(J)I 1\nMain.main([Ljava/lang/String;)V 443776 cycles\nMean.step(I)I 2\nGain.<init>(II)V 537\n")
    made = Made(jop, folder, "--main", "Main", "--source", ".", "--deadlines", "due", "--method", "Weights.sum()I", "classes")
    wanted = ["due:1:15: error: Mean.step(I)I: the bound 10304 by facts doesn't keep the deadline 10303, which it passes by 1",
              "due:2:1: error: no method Main.output(J)I; is Main.output(I)I meant?",
              "due:3:1: error: no line of deadlines: `Main.main([Ljava/lang/String;)V 443776 cycles`",
              "due:4:1: error: a second deadline of Mean.step(I)I",
              "due:5:18: error: Gain.<init>(II)V: the bound 538 by facts doesn't keep the deadline 537, which it passes by 1", "5 errors"]
    yield from differ("told", (1, wanted), (made.status, made.heads()))
    yield from differ("asked for", {"Weights.sum()I", "Mean.step(I)I", "Gain.<init>(II)V"}, {each["method"] for each in made.record()["methods"] if each["asked"]})


def since(jop, folder):
    """an earlier record: the same, bounds that grew, and methods that came and went"""
    first = controller_made(jop, folder)
    shutil.copy(f"{first.out}/wcet.json", f"{folder}/earlier.json")
    words = ("--main", "Main", "--source", ".", "--against", "earlier.json")
    made = Made(jop, folder, *words, "classes")
    yield from differ("the same", (0, []), (made.status, made.told))
    yield from differ("on the page", True, "No bound has changed, and nothing that is supposed." in made.page().text())
    yield from differ("checked anew", 0, Made(jop, folder, "--check", "out").status)
    with open(f"{folder}/Mean.java", encoding="utf-8") as file:
        text = file.read()
    put(f"{folder}/Mean.java", text.replace("loop=4", "loop=5").replace("total<=4", "total<=5").encode())
    made = Made(jop, folder, *words, "classes")
    wanted = ["Main.java:11:9: error: the bound of Main.main([Ljava/lang/String;)V grew by ", "Main.java:19:9: error: the bound of Main.output(I)I grew by ",
              "Mean.java:3:34: error: the bound of Mean.step(I)I grew by ", "wcet: remark: what is supposed of Mean.step(I)I loop 1: was 4, and is 5"]
    yield from differ("grew", 1, made.status)
    yield from (f"`{start}` isn't told: {made.told}" for start in wanted if not any(re.sub(r"\.java:\d+:\d+", "", line).startswith(re.sub(r"\.java:\d+:\d+", "", start)) for line in made.told))
    put(f"{folder}/Mean.java", text.replace("loop=4", "loop=3").encode())
    made = Made(jop, folder, *words, "classes")
    yield from differ("shrank", 0, made.status)
    yield from page_faults(made)
    made = Made(jop, folder, "--main", "plant.Tank", "--against", "earlier.json", f"{HERE}/classes/plant/Tank.class", f"{HERE}/classes/plant/Range.class")
    yield from differ("gone", True, "wcet: remark: Gain.step(I)I: was 1392, and is gone" in made.told)
    yield from differ("new", True, any(line.startswith("wcet: remark: plant/Range.least(II)I: is new, ") for line in made.told))
    put(f"{folder}/earlier.json", b"{}")
    made = Made(jop, folder, *words, "classes")
    yield from differ("none", (1, True), (made.status, "earlier.json: error: no record of a program that was bounded" in made.told))


def wrong_words(jop, folder):
    """words that give no call have status 2, and leave nothing"""
    calls = [["--main", "Main"], ["--main", "Main", "absent"], ["--nothing", "1", "."], ["--main", "A", "--main", "B", "."],
             ["--blocks", "257", "--main", "A", "."], ["--check", "absent"], ["--check", ".", "more"], ["--stack", "300", "--main", "A", "."]]
    for words in calls:
        ran = subprocess.run([f"{TOP}/tools/wcet", "--jop", jop, *words], cwd=folder, capture_output=True, text=True, check=False)
        yield from differ(" ".join(words), (2, ""), (ran.returncode, ran.stdout))
    ran = subprocess.run([f"{TOP}/tools/wcet", "--jop", f"{folder}/absent", "--main", "A", "."], cwd=folder, capture_output=True, text=True, check=False)
    yield from differ("without jop", (3, ""), (ran.returncode, ran.stdout))
    ran = subprocess.run([sys.executable, "-S", f"{TOP}/tools/wcet", "--main", "A"], cwd=folder, capture_output=True, text=True, check=False)
    is_told = "apt-get install python3-jinja2" in ran.stderr
    yield from differ("without packages, which the system's Python may have", True, (ran.returncode, is_told) in ((3, True), (2, False)))


# ---- records that are checked

def moved(jop, folder):
    """a folder that was moved to an empty place holds, and nothing is written there; made anew it is the same"""
    made = changes.tank(jop, folder)
    there = changes.Moved(jop, made, f"{folder}/room")
    shutil.rmtree(made.out)
    before = contents(there.out)
    checked = there.check()
    yield from differ("whole", (0, [], "../there/tank holds: 4 of 4 methods have a bound that was checked twice"), (checked.status, checked.told, checked.said))
    yield from differ("the folder is as it was", True, before == contents(there.out))
    there.check("--out", "again")
    yield from differ("made anew", True, before == contents(f"{folder}/room/elsewhere/again"))


def contents(top):
    """the bytes of all files of a folder"""
    found = {}
    for at, _, names in os.walk(top):
        for name in names:
            with open(os.path.join(at, name), "rb") as file:
                found[os.path.relpath(os.path.join(at, name), top)] = file.read()
    return found


def change_rows(part):
    """a case with each so-manieth row of the changes"""
    def case(jop, folder):
        return changes.told_of(jop, folder, changes.ROWS[part::changes.PARTS])
    case.__name__ = f"changes_{part}"
    return case


def other_programs(jop, folder):
    """a record that another build of jop made holds where all is the same, and that is told, as is a file that it doesn't name"""
    with open(jop, "rb") as file:
        put(f"{folder}/other", file.read() + b"\0")
    os.chmod(f"{folder}/other", 0o755)
    there = changes.Moved(jop, changes.tank(f"{folder}/other", folder), f"{folder}/room")
    put(there.path("more"), b"")
    checked = there.check()
    yield from differ("status", 0, checked.status)
    wanted = ["tank/more: warning: no file of the record", "tank/wcet.json: warning: made by another jop: sha256 recorded ", "2 warnings"]
    yield from differ("told", True, [line.removeprefix("../there/")[:len(start)] for line, start in zip(checked.told, wanted)] == wanted)


# ---- parts

COMMENTS = """class A {
    int a; // @WCA loop=3
    int b; //@WCA loop<=4 (by the plan)
    //@ loop <= 5
    /* in between */

    int c;
    int d; /* @WCA loop = 6 */
    String e = "// @WCA loop=7";
    int f; // at most 8: @WCA loop=8
    int g; // @WCA loop=9 outer
    int h; //@ loop <= 1,000
    int i; // @wca loop=1
    int j; //@ lopo <= 2
    int k; // @WCA loop=4294967296
    int l; //@ loop_invariant x <= 3
    //@Override
    int m; // @WCA loop=1 // and so on
    // @WCA loop=2
    int n; //@ loop <= 2
    char o = '"'; // @ loop <= 11
}
"""


def comments(jop, folder):
    """which comments are notes, to which lines they belong, and which are misspelt"""
    found, wrong = notes.read(notes.Source("A.java", "A.java", COMMENTS.replace("\n", "\r\n").encode()))
    yield from differ("notes", [(2, 3), (3, 4), (7, 5), (8, 6), (10, 8), (18, 1), (20, 2), (21, 11)], [(note.line, note.bound) for note in found])
    yield from differ("misspelt", [11, 12, 13, 14, 15, 20], [line for line, _ in wrong])


# Names as they are written. The machine's program writes them so where this is true.
IS_WRITTEN_BY_JOP = True
NAMES = [(b"a/B.c(I)V", "a/B.c(I)V"), (b"a b", r"a\x20b"), (b"#a#", r"\x23a#"), (b"\\x20", r"\x5Cx20"), (b"a\n\x7f\x00", r"a\x0A\x7F\x00"), (b"l\xe2\x80\xa8t", "l\u2028t"),
         (b"\xff~!", "\udcff~!"), (b"", "")]


def written_names(jop, folder):
    """names as texts and lines have them, and words that are none"""
    yield from differ("written", [word for _, word in NAMES], [names.written(name) for name, _ in NAMES])
    yield from differ("read", [name for name, _ in NAMES], [names.named(word) for _, word in NAMES])
    yield from differ("no names", [None] * 6, [names.named(word) for word in ("a b", "#a", "\\", r"\x2", r"\x41", r"\x2f")])


def line_separator(jop, folder):
    """a method whose name holds what ends a line elsewhere"""
    return named_page(jop, folder, {b"least": b"l\xe2\x80\xa8t"}, "plant/Range.l\u2028t(II)I")


def odd_names(jop, folder):
    """a method whose name holds a space, and one that begins a line"""
    if not IS_WRITTEN_BY_JOP:
        yield "skipped odd_names: this jop puts names as they are"
        return
    yield from named_page(jop, folder, {b"least": b"l a\nt", b"sum": b"s m"}, r"plant/Range.l\x20a\x0At(II)I", r"plant/Tank.s\x20m([I)I")


def named_page(jop, folder, changed, *wanted):
    """a page of a program some of whose names are others, which a page has to have"""
    shutil.copytree(f"{HERE}/src/plant", f"{folder}/plant")
    for name in ("Tank", "Range"):
        with open(f"{HERE}/classes/plant/{name}.class", "rb") as file:
            data = file.read()
        for old, new in changed.items():
            data = data.replace(len(old).to_bytes(2, "big") + old, len(new).to_bytes(2, "big") + new)
        put(f"{folder}/classes/{name}.class", data)
    put(f"{folder}/sizes", changes.SIZES.encode())
    put(f"{folder}/levels", b"\x03\x01\x02\x03")
    made = Made(jop, folder, "--main", "plant.Tank", "--source", ".", "--sizes", "sizes", "--input", "levels", "classes")
    yield from differ("told", (0, []), (made.status, made.told))
    yield from differ("names", set(), set(wanted) - {each["method"] for each in made.record()["methods"] if each["checked"] and each["seen"]})
    yield from page_faults(made)
    yield from differ("checked anew", 0, Made(jop, folder, "--check", "out").status)


def rings(jop, folder):
    """classes whose initialisers use one another stay as they are named, behind what they both use"""
    needs = {"A": ["B"], "B": ["A", "C"], "C": [], "D": ["A"]}
    classes = [made_class(name, used) for name, used in needs.items()]
    places, found = initialisers.order([classes[3], *classes[:3]])
    yield from differ("the order", [3, 1, 2, 0], places)
    yield from differ("the ring", [[b"A", b"B"]], found)


def made_class(name, used):
    """a class whose initialiser makes objects of others"""
    from rechecker.core_classes import Maker
    made = Maker(0x21, name.encode(), b"java/lang/Object", [])
    made.method(8, b"<clinit>", b"()V", 1, 0, [part for each in used for part in (b"\xbb", lambda each=each: made.cls(each.encode()), b"\x57")] + [b"\xb1"])
    return made.c


def in_a_browser(jop, folder):
    """a browser reads the page without an error, and its tables sort"""
    if not browser.PROGRAM:
        yield "skipped in_a_browser: chromium is missing (apt-get install chromium)"
        return
    made = controller_made(jop, folder)
    yield from browser.page_faults(f"{made.out}/wcet.html", folder)


def many_digits(jop, folder):
    """numbers of eight digits: what a stack and a memory want, and in a browser no number that is cut and no table that leaves the page"""
    put(f"{folder}/src/plant/Tank.java", b"")
    with open(f"{HERE}/src/plant/Tank.java", encoding="utf-8") as file:
        put(f"{folder}/src/plant/Tank.java", file.read().replace("loop=4", "loop=90000").replace("loop <= 4", "loop <= 90000").encode())
    put(f"{folder}/sizes", changes.SIZES.replace("4", "90000").encode())
    classes = [f"{HERE}/classes/plant/{name}.class" for name in ("Tank", "Range")]
    made = Made(jop, folder, "--main", "plant.Tank", "--source", "src", "--sizes", "sizes", *classes)
    yield from differ("told", (0, []), (made.status, made.told))
    yield from page_faults(made)
    need = made.record()["memory"]["figures"]
    text = made.page().text()
    for line in (f"--stack of at least {need['stack']['value']} + 80, which the machine keeps for itself: 256 holds 176 words of frames",
                 f"--memory of at least {need['image']['value']:,} + {need['heap']['value']:,}"):
        yield from differ(line, True, line in text)
    yield from differ("digits", [8], [len(str(method["bound"]["value"])) for method in made.record()["methods"] if ".main(" in method["method"]])
    if browser.PROGRAM:
        yield from browser.page_faults(f"{made.out}/wcet.html", folder)


CASES = [*build.CASES, *visits.CASES, in_a_browser, many_digits, controller, options, two_inputs, same_twice, starting, promised, longs, faults, two_loops, heads_of_loops, broken, refused, lengths, link_refused, misled, interchange, unfinished, makefile, executive_makefile, deadlines, since, wrong_words, moved,
         *map(change_rows, range(changes.PARTS)), other_programs, comments, rings, written_names, line_separator, odd_names]
