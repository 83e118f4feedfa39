"""Cases of tests/wcet of what a team builds with: a file of options, adapted classes, slots, rates, and the fields of the record."""
import json
import os
import re
import shutil
import subprocess

from wcet_page import answers, refusals, shared, titles

import changes
from tool import CONTROLLER, HERE, TOP, Made, differ, page_faults, put

EXECUTIVE = f"{TOP}/examples/executive"
WRONG = """main = "plant.Tank"
sourse = "src"

  blocks = 300
input = ["levels", 3]
"adapt" = 1
bounds = "absent"
out = ""
[machine]
read = 1
"""
WRONG_TOLD = [
    "room/wcet.toml:2:1: error: no key sourse; is source meant?", "room/wcet.toml:4:12: error: blocks: a number from 1 to 256 is wanted",
    "room/wcet.toml:5:1: error: input: a text in quotes, or a list of them, is wanted", "room/wcet.toml:6:11: error: adapt: true or false is wanted",
    "room/wcet.toml:7:1: error: bounds: room/absent not found", "room/wcet.toml:8:1: error: out: a text in quotes is empty, or holds a zero",
    "room/wcet.toml:9:1: error: no key machine; is main meant?", "7 errors",
]


def options_of_a_file(jop, folder):
    """what one types each time: from a file, by paths that are relative to it; words count before it, and what is wrong in it is told with its line"""
    room = f"{folder}/room"
    os.mkdir(room)
    made = changes.tank(jop, room)
    whole = [made.text(name) for name in ("wcet.json", "wcet.html")]
    text = """main = "plant.Tank"\nsource = "src"\nblocks = 8 # of the cache\nclasses = ["classes"]\nbounds = ["tank.bounds"]\nfacts = "tank.facts"\nsizes = "tank.sizes"
report = "tank.report"\ninput = ["levels"]\n"""
    put(f"{room}/wcet.toml", text.encode())
    here = Made(jop, room)
    yield from differ("of this folder", (0, []), (here.status, here.told))
    yield from differ("the same bytes", True, [here.text(name) for name in ("wcet.json", "wcet.html")] == whole)
    there = Made(jop, folder, "--config", "room/wcet.toml", "--blocks", "4", "--method", "plant/Tank.sum([I)I")
    yield from differ("of another folder", (0, []), (there.status, there.told))
    yield from differ("words count before it", ({"--blocks": 4}, ["plant/Tank.sum([I)I"]), (there.record()["options"], there.record()["asked"]["methods"]))
    put(f"{room}/wcet.toml", WRONG.replace("is main meant?", "").encode())
    wrong = Made(jop, folder, "--config", "room/wcet.toml")
    wanted = [line.replace("; is main meant?", "") for line in WRONG_TOLD]
    yield from differ("all that is wrong", (2, wanted), (wrong.status, wrong.heads()))
    put(f"{room}/wcet.toml", b'main = "A"\nmain = "B"\n')
    twice = Made(jop, folder, "--config", "room/wcet.toml")
    yield from differ("twice", (2, True), (twice.status, twice.told[0].startswith("room/wcet.toml:2:11: error: Cannot overwrite a value")))
    put(f"{room}/wcet.toml", b'main = "plant.Tank"\n')
    little = Made(jop, folder, "--config", "room/wcet.toml")
    yield from differ("too little", (2, True), (little.status, "CLASSES are wanted" in little.told[0]))
    yield from differ("beside --check", 2, Made(jop, folder, "--check", "out", "--config", "room/wcet.toml").status)


# ---- slots

def slots(jop, folder):
    """an executive: each slot beside its length, runs that keep them, and a table that is late"""
    for name in ("slots.table", "Slots.java"):
        shutil.copy(f"{EXECUTIVE}/{name}", folder)
    classes = [f"{EXECUTIVE}/classes", f"{CONTROLLER}/classes"]
    words = ("--main", "Slots", "--source", ".", "--source", CONTROLLER, "--input", f"{CONTROLLER}/samples", "--table", "slots.table",
             "--rounds", "12")
    made = Made(jop, folder, *words, *classes)
    yield from differ("status", (0, []), (made.status, made.told))
    yield from page_faults(made)
    executive = made.record()["executive"]
    yield from differ("slots", [(0, 465, 1000), (1, 34351, 36000), (2, 500, 1000)],
                      [(each["slot"], each["bound"]["value"], each["length"]["value"]) for each in executive["slots"]])
    yield from differ("a run", ["ended slots=36 late=0 idle=336620 cycles=123573"], [each["line"] for each in executive["cycles"]])
    yield from differ("on the page", True, "Slots.control()34,35136,000" in made.page().text())
    yield from differ("checked anew", 0, Made(jop, folder, "--check", "out").status)
    with open(f"{folder}/slots.table", encoding="utf-8") as file:
        text = file.read()
    put(f"{folder}/slots.table", text.replace("36000", "10000").replace("report()V 1000", "report()V 499").encode())
    late = Made(jop, folder, *words, *classes)
    wanted = ["slots.table:1:1: error: with given/inputs/samples 10 of 36 calls of slots took longer than their slots",
              "slots.table:3:23: error: slot 1: the bound 34351 passes the length 10000 by 24351",
              "slots.table:4:22: error: slot 2: the bound 500 passes the length 499 by 1", "3 errors"]
    came = [line.replace("slots.table: error", "slots.table:1:1: error") for line in late.heads()]
    yield from differ("late", (1, wanted), (late.status, came))
    yield from page_faults(late)
    put(f"{folder}/slots.table", text.replace("sense()V", "sence()V").encode())
    yield from differ("no method", True, any(line.startswith("slots.table:2:") and "NoMethod" in line for line in Made(jop, folder, *words, *classes).told))
    put(f"{folder}/slots.table", text.replace("slot Slots.sense", "slot  Slots.sense").encode())
    yield from differ("no line", True, any(line.startswith("slots.table:2:1: error: no line of a table") for line in Made(jop, folder, *words, *classes).told))
    yield from differ("no rounds", 2, Made(jop, folder, "--main", "Slots", "--table", "slots.table", *classes).status)


TASKS = "clock 10000000\ntask A.a()V every=5ms length=1000\ntask A.b()V every=20ms from=5ms length=36000\ntask A.c()V every=100ms length=49000\n"
# Tasks, and what is told of them; of those that fit, how many slots there are and what the first frames have.
RATES = [
    (TASKS, 0, [26, "# A round of 100 ms, in frames of 5 ms, 50000 cycles each.", "# at 0 ms: 50000 cycles", "slot A.a()V 1000", "slot A.c()V 49000",
                "# at 5 ms: 37000 cycles", "slot A.a()V 1000", "slot A.b()V 36000", "# at 10 ms: 1000 cycles", "slot A.a()V 1000", "# at 15 ms: 1000 cycles"]),
    ("clock 3000\ntask A.a()V every=2s length=3000\ntask A.b()V every=3s from=1s length=1\n", 1,
     ["t:3:30: error: at 4 s 3001 cycles are due in a frame of 3000 (1 s)", "  no offsets that were tried make it fit: shorter slots, or slower rates"]),
    ("clock 10000000\ntask A.a()V every=5ms length=20000\ntask A.b()V every=20ms length=26000\ntask A.c()V every=20ms length=26000\n", 1,
     ["t:4:24: error: at 0 ms 72000 cycles are due in a frame of 50000 (5 ms)", "  it fits with from=5ms in line 4"]),
    (TASKS.replace("49000", "49001"), 1, ["t:4:25: error: at 0 ms 50001 cycles are due in a frame of 50000 (5 ms)",
                                          "  no offsets that were tried make it fit: shorter slots, or slower rates"]),
    ("clock 1000\ntask A.a()V every=7ms length=1\ntask A.b()V every=300ms length=1\n", 1,
     ["t:3:13: error: 307 slots are due in 2100 ms: a table has at most 64", "  not harmonic: 300 ms is no multiple of the 7 ms of line 2; take 294 ms"]),
    ("clock 1000\ntask A.a()V every=1ms length=1\ntask A.b()V every=64ms length=1\n", 1, ["t: error: 65 slots are due in 64 ms: a table has at most 64"]),
    ("clock 5\nclock 6\ntask A.a()V every=5ms from=5ms length=1\ntask A.a()V every=5 length=1\n", 2,
     ["t:2:1: error: a second clock", "t:3:23: error: a task is wanted that is due again behind a time, and at first before that has passed",
      "t:4:1: error: no line of tasks: `task A.a()V every=5 length=1`", "t: error: a line `clock HZ` and a line `task ..` are wanted"]),
]


def rates(jop, folder):
    """tables of slots of tasks with rates and offsets, and what doesn't fit"""
    for number, (text, status, wanted) in enumerate(RATES):
        put(f"{folder}/t", text.encode())
        ran = subprocess.run([f"{TOP}/tools/rates", "t"], cwd=folder, capture_output=True, text=True, check=False)
        yield from differ(f"tasks {number}", status, ran.returncode)
        rows = ran.stdout.splitlines()
        if status == 0:
            yield from differ(f"slots {number}", wanted, [sum(row.startswith("slot ") for row in rows), *rows[:len(wanted) - 1]])
        else:
            yield from differ(f"nothing is put {number}", "", ran.stdout)
            yield from (f"tasks {number}: `{line}` isn't told: {ran.stderr}" for line in wanted if line not in ran.stderr.splitlines())


# ---- the page

def with_calls(jop, folder):
    """what lines take with what they call: their sum is what the bound has beside loads, invoke and return, and no line's share is another's"""
    words = ("--main", "Slots", "--source", EXECUTIVE, "--source", CONTROLLER, "--input", f"{CONTROLLER}/samples")
    made = Made(jop, folder, *words, f"{EXECUTIVE}/classes", f"{CONTROLLER}/classes")
    yield from page_faults(made)
    methods = {each["method"]: each for each in made.record()["methods"]}
    for each in methods.values():
        if each.get("report", {}).get("rows"):
            total = sum(part["cycles"] for part in each["together"]) + sum(part["value"] for part in each["report"]["parts"].values())
            yield from differ(f"the sum of {each['method']}", each["bound"]["value"], total)
    control = {tuple(each["lines"]): each["cycles"] for each in methods["Slots.control()V"]["together"]}
    # line 21 alone calls `step`, and line 25 `level`
    rows = methods["Slots.control()V"]["report"]["rows"]
    steps = sum(row["cycles"]["value"] for row in rows if row["method"].startswith(("Mean.", "Weights.", "Gain.")))
    own = {row["at"]: row["cycles"]["value"] for row in rows if row["method"] == "Slots.control()V"}
    yield from differ("the line of a call", own[21] + steps, control[21,])
    yield from differ("a line without one", own[20], control[20,])
    yield from differ("visits that were seen", [{"18": 12, "20": 12, "21": 22, "26": 10, "23": 2, "24": 2, "25": 2, "27": 12}],
                      [each["lines"] for each in methods["Slots.control()V"]["visited"]])
    yield from differ("names as in a source", True, "Slots.main(String[])" in made.page().text() and "Weights.static {}" in made.page().text())


NAMES = {
    "State.valueOf(Ljop/Text;)LState;": "State.valueOf(Text)", "a/B$C.<init>([[JZ)V": "B$C(long[][], boolean)", "a/B.<clinit>()V": "B.static {}",
    "a/X.m(La/Y;)I": "a.X.m(a.Y)", "b/X.m(La/Y;)I": "b.X.m(a.Y)", "X.c()LX;": "X.c(): X", "X.c()Ljava/lang/Object;": "X.c(): java.lang.Object",
    "odd": "odd", r"A.l\x20m()V": r"A.l\x20m()",
}


def names_of_methods(jop, folder):
    """names of methods as a source has them, each one's own"""
    made = titles.Titles(NAMES)
    yield from differ("shown", NAMES, {name: re.sub("<[^>]*>", "", str(made(name))) for name in NAMES})
    yield from differ("of a loop", "B.static {} loop 2", re.sub("<[^>]*>", "", str(made("a/B.<clinit>()V loop 2"))))


CONSTANTS = """class A { static final boolean ON = true; static boolean off = true;
void a() { while (ON) { while (c) { } } }
void b() { while (off) { while (c) { } } }
void c() { for (; B.ALWAYS; ) while (c) { } }
void d() { do { while (c) { } } while (false); }
void e() { do { do { while (c) { } } while (false); } while (d); }
}"""


def constant_tests(jop, folder):
    """heads of loops that begin together on one line, by a field that is always true; `do .. while (false)` is no loop"""
    found = [([head.word for head in heads], heads[0].first) for heads, _ in shared.Java(CONSTANTS, always={"ALWAYS"}).together()]
    yield from differ("heads", [(["while", "while"], 2), (["for", "while"], 4), (["do", "while"], 6)], found)


def carets(jop, folder):
    """what of a line is meant where `link` refuses it"""
    rows = [("lmul", "a = b * c; // x", "*"), ("ldiv", "a = b / c; // x", "/"), ("ldiv", "a = b // c", None), ("invokedynamic", "run(() -> 1)", "->"),
            ("multianewarray", "a = new int[2][3];", "new"), ("ldc class", "return A.class;", "A.class"), ("d2i", "int a = (int) (double) b;", "double")]
    for item, line, wanted in rows:
        near = refusals.words_of("unsupported", {"item": item}, "", [])[2]
        found = re.search(near, line)
        yield from differ(f"{item} of {line}", wanted, found and found[0])
    names = [refusals.named_word(name) for name in ("a/B", "a/B$C", "a/B.at(I)I", "a/B.<init>()V", "[La/B;")]
    yield from differ("names", [r"\bB\b", r"\bC\b", r"\bat\b", r"\bnew\b", r"\bB\b"], names)


def remarks(jop, folder):
    """what `headers` remarks beside the line of a loop leaves that as it is"""
    for lines in (["# A.java:3", "# back from lines 5 and 10", "A.a()V 0 loop<=3"], ["# back from line 5", "# A.java:3", "# A.a()V 0 loop<="]):
        yield from differ(lines[1], [("A.a()V", 0, ("A.java", 3))], [(each.method, each.place, each.at) for each in answers.Headers(lines).loops])


# ---- the record

def field_names(value, name=""):
    """the fields of a record: `a.b`, `a[]` of lists, `a{}` of what has names of its own"""
    if isinstance(value, dict) and set(value) == {"value", "line", "command"}:
        yield name
    elif isinstance(value, dict):
        is_named = name in NAMED
        for each, part in value.items():
            yield from field_names(part, f"{name}{{}}" if is_named else f"{name}.{each}" if name else each)
    elif isinstance(value, list) and value:
        for each in value:
            yield from field_names(each, f"{name}[]")
    elif value == []:
        yield f"{name}[]"
    elif value not in (None, {}) or value is None and "." in name:
        yield name


# Fields whose parts have names of their own.
NAMED = {"options", "programs", "methods[].turns", "methods[].visited[].lines"}


def documented():
    """the fields that docs/formats.md has, those of adapted classes apart"""
    with open(f"{TOP}/docs/formats.md", encoding="utf-8") as file:
        part = file.read().partition("## Record of a page")[2].partition("\n## ")[0]
    every = {name for line in part.splitlines() if line.startswith("| `") for name in re.findall(r"`([^`]+)`", line.split(" | ")[0])}
    return {name for name in every if not name.startswith("adapted.")}, {name for name in every if name.startswith("adapted.")}


def fields(jop, folder):
    """each field of a record is documented, and each that is documented is there"""
    first = changes.tank(jop, folder, "--method", "plant/Tank.sum([I)I")
    earlier, records = first.record(), [first.record()]
    earlier["methods"][0]["bound"]["value"] = earlier["loops"][0]["bound"]["value"] = 1
    put(f"{folder}/earlier.json", json.dumps(earlier).encode())
    put(f"{folder}/due", b"plant/Tank.sum([I)I 1\n")
    tank = ("--main", "plant.Tank", "--source", "src", "--deadlines", "due", "--against", "earlier.json", "--sizes", "tank.sizes",
            "--input", "levels", "classes")
    slots_of = ("--main", "Slots", "--source", EXECUTIVE, "--source", CONTROLLER, "--input", f"{CONTROLLER}/samples", "--table", f"{EXECUTIVE}/slots.table",
                "--rounds", "2", f"{EXECUTIVE}/classes", f"{CONTROLLER}/classes")
    for words in (tank, slots_of, ("--main", "Faults", "--source", f"{HERE}/src", f"{HERE}/classes/Faults.class")):
        records.append(Made(jop, folder, *words, out=f"out{len(records)}").record())
    found = {name for record in records for name in field_names(record) if not name.startswith("adapted")}
    known, _ = documented()
    yield from differ("fields that no page documents", set(), {name for name in found - known if not any(each.startswith(name) for each in known)})
    yield from differ("fields that are documented and aren't there", set(), known - found)


ORDINARY = """package app;

public class Main {
    enum State { OPEN, SHUT } // @WCA length=2

    static int[][] grid(int n) {
        return new int[n][2 * n]; // @WCA length=6
    }

    public static void main(String[] args) {
        int n = 0;
        for (State each : State.values()) { // @WCA loop=2
            n += each.ordinal();
        }
        jop.Io.write((int) (n * 3L) + grid(3).length);
    }
}
"""


def adapted(jop, folder):
    """ordinary Java in one command: adapted, bounded and checked; made anew where the programs are here; and what can't be adapted, with its line"""
    ran = subprocess.run([f"{TOP}/tools/adapt", "--help"], capture_output=True, text=True, check=False)
    if ran.returncode:
        put(f"{folder}/Main.class", b"")
        made = Made(jop, folder, "--adapt", "--main", "app.Main", ".")
        yield from differ("without the programs", (3, ran.stderr.splitlines()), (made.status, made.told))
        yield f"skipped adapted: {ran.stderr.splitlines()[0]}"
        return
    put(f"{folder}/src/app/Main.java", ORDINARY.encode())
    compiled(folder)
    words = ("--adapt", "--main", "app.Main", "--source", "src", "classes")
    made = Made(jop, folder, *words)
    yield from differ("status", (0, []), (made.status, [line for line in made.told if ": remark: " not in line]))
    yield from page_faults(made)
    record = made.record()
    lengths = {each["length"]["value"] for each in record["lengths"] if "newArray$" in each["method"] or "copyArray$" in each["method"]}
    yield from differ("arrays that were made for lines", {2, 6}, lengths)
    yield from differ("programs", {"tools/adapt", "ASM", "javac", "java"}, set(record["programs"]) - {"jop", "tools/wcet", "Python", "Jinja2", "Pygments"})
    yield from differ("fields", {name for name in field_names(record) if name.startswith("adapted.")}, documented()[1])
    yield from differ("who gives bounds", {"note", "file"}, {each["by"] for loop in record["loops"] for each in loop["by"]})
    checked = Made(jop, folder, "--check", "out")
    yield from differ("checked anew", (0, []), (checked.status, [line for line in checked.told if ": remark: " not in line]))
    words_of_check = [f"{TOP}/tools/wcet", "--jop", jop, "--check", "out"]
    without = subprocess.run(words_of_check, cwd=folder, env={**os.environ, "ADAPT_ASM": f"{folder}/absent"}, capture_output=True, text=True, check=False)
    yield from differ("checked without ASM", (0, True), (without.returncode, "warning: not adapted anew" in without.stderr))
    with open(f"{made.out}/given/ordinary/1/app/Main.class", "r+b") as file:
        data = file.read()
        file.seek(0)
        file.write(data.replace(b"ordinal", b"compare"))
    yield from differ("a class file that was adapted", 1, Made(jop, folder, "--check", "out").status)
    put(f"{folder}/src/app/Main.java", ORDINARY.replace("n * 3L", "n * 3.5").encode())
    compiled(folder)
    refused = Made(jop, folder, *words)
    yield from differ("refused", (1, True), (refused.status, "src/app/Main.java:15:9: error: float or double (app/Main.main)" in refused.told))


def compiled(folder):
    """the class files of the sources of a folder, beside the stand-in of jop.Io"""
    sources = [os.path.join(at, name) for at, _, names in os.walk(f"{folder}/src") for name in names]
    words = ["javac", "--release", "8", "-Xlint:-options", "-nowarn", "-d", f"{folder}/host", f"{CONTROLLER}/jop/Io.java"]
    subprocess.run(words, check=True, capture_output=True)
    subprocess.run([*words[:5], "-cp", f"{folder}/host", "-d", f"{folder}/classes", *sources], check=True, capture_output=True)


CASES = [fields, adapted, slots, options_of_a_file, with_calls, rates, names_of_methods, constant_tests, remarks, carets]
