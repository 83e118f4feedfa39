"""Cases of tests/wcet of facts of visits: numbers by facts, who gives facts, what the runs say of them, and what is wrong with one."""
import json
import shutil

from rechecker.facts import read_facts
from wcet_page import notes, runs

import changes
from tool import HERE, Made, differ, page_faults, put

BY_PLACE = """# of each entry of the inner loop, and of a call
Visits.nested(I)I 15 total<=3 per 11
Visits.nested(I)I 15 total<=6

Visits.body(I)I 16 total<=3
Visits.next(I)I 0 total<=2
Visits.cleared(I)V 4r total<=0
"""
TEXT = """# Visits.java:9
Visits.body(I)I 6 total<=6
# Visits.java:11
Visits.body(I)I 16 total<=2
# Visits.java:20
Visits.cleared(I)V 4r total<=0
# Visits.java:22
Visits.cleared(I)V 8 total<=1
# Visits.java:22
Visits.cleared(I)V 17 total<=1
# Visits.java:28
Visits.again(I)I 0 total<=1
# Visits.java:28
Visits.again(I)I 4 total<=1
# Visits.java:33
Visits.next(I)I 0 total<=2
# Visits.java:41
Visits.nested(I)I 15 total<=6
# Visits.java:41
Visits.nested(I)I 15 total<=3 per 11
"""


def visits(jop, folder, text=BY_PLACE, given=b"\x06", change=lambda source: source, words=()):
    """a call of the tool for the program of visits, with a text of facts, an input and a change of its source"""
    with open(f"{HERE}/src/Visits.java", encoding="utf-8") as file:
        put(f"{folder}/Visits.java", change(file.read()).encode())
    put(f"{folder}/visits.facts", text.encode())
    put(f"{folder}/level", given)
    return Made(jop, folder, "--main", "Visits", "--source", ".", "--facts", "visits.facts", "--input", "level", *words, f"{HERE}/classes/Visits.class")


def by_facts(jop, folder):
    """numbers by facts stand beside those without; each fact has who gave it, and what the runs came to"""
    made = visits(jop, folder)
    yield from differ("told", (0, []), (made.status, made.told))
    yield from page_faults(made)
    yield from differ("the text", TEXT, made.text("wcet.facts"))
    record = made.record()
    for method in record["methods"]:
        bound, found = method["bound"]["value"], method.get("by_facts")
        if "certificate" in method:
            yield from differ(f"checked {method['method']}", (True, True), (found["checked"], found["bound"]["value"] <= bound))
            yield from differ(f"both hold {method['method']}", {f"holds {method['method']} {found['bound']['value']}"}, {each["line"] for each in found["checks"]})
    said = {each["text"]: ([(giver["by"], giver["file"], giver["line"], giver["most"]) for giver in each["by"]], [seen["visits"] for seen in each["seen"]])
            for each in record["facts"]["lines"]}
    yield from differ("of a note and a file", ([("note", "given/sources/Visits.java", 11, 2), ("file", "given/facts/visits.facts", 5, 3)], [2]),
                      said["Visits.body(I)I 16 total<=2"])
    yield from differ("seen", [6, 2, 0, 1, 0, 1, 1, 1, 6, 3], [seen[0] for _, seen in said.values()])
    lower = {each["method"] for each in record["methods"] if "by_facts" in each and each["by_facts"]["bound"]["value"] < each["bound"]["value"] - 300}
    yield from differ("lower by far", {"Visits.body(I)I", "Visits.nested(I)I", "Visits.again(I)I", "Visits.main([Ljava/lang/String;)V"}, lower)
    yield from differ("the prices of a method", True, any(each["prices"] for each in (method.get("by_facts") or {"prices": []} for method in record["methods"])))
    text = made.page().text()
    for words in ("note 2 (given/sources/Visits.java:11), file 3 (given/facts/visits.facts:5)", "per entry of the loop at 11", "By facts",
                  "cycles of main at most, by facts", "facts that were given"):
        yield from differ(words, True, words in text)
    yield from differ("broken", False, "broken" in text)
    yield from differ("checked anew", (0, []), (lambda again: (again.status, again.told))(Made(jop, folder, "--check", "out")))


def without_facts(jop, folder):
    """a folder that is made anew without facts has none, and a file without facts gives numbers that suppose nothing more"""
    visits(jop, folder)
    made = visits(jop, folder, "", change=lambda source: source.replace("@WCA total", "visits").replace("@ total", "visits"))
    yield from differ("told", (0, []), (made.status, made.told))
    yield from differ("an empty text", ("", []), (made.text("wcet.facts"), made.record()["facts"]["lines"]))
    yield from differ("said", True, "No fact is given" in made.page().text())
    made = Made(jop, folder, "--main", "Visits", "--source", ".", f"{HERE}/classes/Visits.class")
    yield from differ("none", (0, None, set()), (made.status, made.record()["facts"], {name for method in made.record()["methods"] for name in method if name == "by_facts"}))
    yield from differ("checked anew", (0, []), (lambda again: (again.status, again.told))(Made(jop, folder, "--check", "out")))


def broken_facts(jop, folder):
    """facts that a run breaks are errors, in a call, per entry of a loop and at a line; a run that takes more than a number by facts is told, too"""
    made = visits(jop, folder, "Visits.nested(I)I 15 total<=2 per 11\nVisits.nested(I)I 15 total<=5\n", change=lambda source: source.replace("total<=2", "total<=1"))
    wanted = ["Visits.java:11:17: error: with given/inputs/level in a call of the method 2 visits come, more than the fact `Visits.body(I)I 16 total<=1` allows",
              "Visits.java:41:17: error: with given/inputs/level from an entry of the loop at 11 to the next 3 visits come, more than the fact "
              "`Visits.nested(I)I 15 total<=2 per 11` allows",
              "Visits.java:41:17: error: with given/inputs/level in a call of the method 6 visits come, more than the fact `Visits.nested(I)I 15 total<=5` allows"]
    yield from differ("told", (1, set()), (made.status, set(wanted) - set(made.heads())))
    yield from differ("the page", True, "✗ broken" in made.page().text())
    made = visits(jop, folder, "Visits.body(I)I 6 total<=0\n")
    yield from differ("more cycles", True, any("more than the number by facts (Visits.body(I)I)" in line for line in made.told))


WRONG = """Visits.nested(I)I 15 total<=2 per 12
Visits.nested(I)I 16 total<=02
Visits.nested(I)I 14 total<=2
Visits.nestled(I)I 15 total<=2
Visits.nested(I)I 15r total<=2
Visits.nested(I)I 15 total<=3 per 11
Visits.nested(I)I 15 total<=4 per 11
Visits.java:13 total<=2
Other.java:13 total<=2
Visits.java:8 total<=6
Visits.java:40 total<=4
Visits.java:40 total<=4
Visits.body(I)I 0 total<=2 in Visits.again(J)I
"""
# Each with the line, the words that are told of it, and what to do.
WRONG_TOLD = [
    (1, "error: no such fact: no loop with its header at 12 has place 15", "it stands in loops with their headers at 4, 11"),
    (2, "error: bad fact: `Visits.nested(I)I 16 total<=02`", "write `NAME PC total<=N`"),
    (3, "error: no such fact: no instruction of Visits.nested(I)I begins at 14; the nearest begin at 12 and 15", "`javap -c -p` shows the places"),
    (4, "error: no such fact: no method Visits.nestled(I)I; is Visits.nested(I)I meant?", "write a method as `jop bound --all` puts it"),
    (5, "error: no such fact: the instruction at 15 raises nothing", "leave the `r` behind 15 away"),
    (7, "error: twice the same fact: `Visits.nested(I)I 15 total<=4 per 11`", "leave one of them"),
    (8, "error: stale fact: no code begins at line 13; the nearest begins at line 14", "write it on the line whose visits are counted"),
    (9, "warning: unused: no class of the program is of Other.java", None),
    (10, "warning: the code of this line begins with the test of a loop that goes round 6 times, so it may come 7 times", "write it on the first line of the loop's body"),
    (12, "error: twice the same fact: `Visits.java:40 total<=4`", "leave one of them"),
]


def wrong_facts(jop, folder):
    """facts that say nothing are told all at once, each with file, line and what to do, in SARIF, too; a note is told at its line"""
    def stale(source):
        return source.replace("return sum;", "return sum; // @WCA total<=3 (no more)", 1).replace("static int left;", "static int left; // @WCA total<=1").replace("@ total", "@ totl")
    made = visits(jop, folder, WRONG, change=stale, words=("--sarif", "told.sarif"))
    yield from differ("status", 1, made.status)
    for line, words, cure in WRONG_TOLD:
        at = next((at for at, each in enumerate(made.told) if each.startswith(f"visits.facts:{line}:1: {words}")), None)
        yield from differ(f"line {line}", True, at is not None)
        yield from differ(f"what to do, line {line}", True, at is None or cure is None or made.told[at + 3].startswith(f"  {cure}"))
    root = [line for line in made.told if line.startswith("visits.facts:13:1: error: ") and "Visits.again(J)I" in line]
    yield from differ("a fact in another method", 1, len(root))
    for line in ("Visits.java:3:25: error: stale note: no code begins at line 3; the nearest begins at line 2",
                 "Visits.java:28:25: error: misspelt note `@ totl <= 1`: write `@WCA total<=N` or `@ total <= N`"):
        yield from differ(line, True, line in made.heads())
    with open(f"{folder}/told.sarif", encoding="utf-8") as file:
        results = json.load(file)["runs"][0]["results"]
    places = [(each["level"], each["locations"][0]["physicalLocation"]) for each in results if each["ruleId"] in ("facts", "stale")]
    told = {(level, place["artifactLocation"]["uri"], place["region"]["startLine"]) for level, place in places}
    wanted = {("error", "visits.facts", line) for line, words, _ in WRONG_TOLD if words.startswith("error")} | {("error", "Visits.java", 3)}
    yield from differ("as code hosts read it", set(), wanted - told)
    kept = [line for line in made.text("wcet.facts").splitlines() if not line.startswith("#")]
    yield from differ("what is left", ["Visits.nested(I)I 9 total<=4", "Visits.nested(I)I 15 total<=3 per 11", "Visits.nested(I)I 21 total<=4"],
                      [line for line in kept if ".nested" in line])
    yield from differ("read by the second checker", True, isinstance(read_facts(made.text("wcet.facts").encode()), list))


def held_by_facts(jop, folder):
    """deadlines and an earlier record go by numbers by facts"""
    made = visits(jop, folder)
    numbers = {each["method"]: (each["bound"]["value"], each["by_facts"]["bound"]["value"]) for each in made.record()["methods"] if each.get("by_facts")}
    bound, least = numbers["Visits.body(I)I"]
    shutil.copy(f"{made.out}/wcet.json", f"{folder}/earlier.json")
    put(f"{folder}/due", f"Visits.body(I)I {bound - 1}\n".encode())
    made = visits(jop, folder, words=("--deadlines", "due", "--against", "earlier.json"))
    yield from differ("kept by facts", (0, []), (made.status, made.told))
    put(f"{folder}/due", f"Visits.body(I)I {least - 1}\n".encode())
    made = visits(jop, folder, words=("--deadlines", "due"))
    yield from differ("late", [f"due:1:17: error: Visits.body(I)I: the bound {least} by facts doesn't keep the deadline {least - 1}, which it passes by 1", "1 error"], made.heads())
    made = visits(jop, folder, change=lambda source: source.replace("total<=2", "total<=3"), words=("--against", "earlier.json"))
    yield from differ("grew", True, any(line.startswith("Visits.java:7:9: error: the bound of Visits.body(I)I grew by ") for line in made.told))
    yield from differ("what is supposed", True, "wcet: remark: what is supposed of Visits.body(I)I fact 2: was 2, and is 3" in made.told)


TRACE = b"""0 A.main()V 0 nop frames=1 operands=0
1 A.main()V 1 invokestatic frames=1 operands=0
2 A.f()V 0 nop frames=2 operands=0
3 A.f()V 2 nop frames=2 operands=0
4 A.f()V 0 nop frames=2 operands=0
5 A.f()V 2 nop frames=2 operands=0
6 A.f()V 2 raise frames=2 operands=0
7 A.f()V 3 invokestatic frames=2 operands=0
8 A.g()V 0 return frames=3 operands=0
9 A.f()V 0 nop frames=2 operands=0
write 07
10 A.f()V 2 return frames=2 operands=0
11 A.main()V 1 invokestatic frames=1 operands=0
12 A.f()V 2 nop frames=2 operands=0
13 A.f()V 3 invokestatic frames=2 operands=0
14 A.g()V 0 return frames=3 operands=0
15 A.f()V 4 return frames=2 operands=0
16 A.main()V 1 invokestatic frames=1 operands=0
17 A.g()V 0 return frames=2 operands=0
"""


def counted_visits(jop, folder):
    """visits in a trace: in an activation, from each entry of a loop to the next, at a raise step, and while another method runs"""
    def fact(method, node, per=None, root=None, nodes=()):
        return runs.Fact({"method": method, "per": per, "root": root}, node, nodes)
    loop = {(0, False), (2, False)}
    facts = [fact("A.f()V", (2, False)), fact("A.f()V", (2, False), 0, None, loop), fact("A.f()V", (2, True)), fact("A.g()V", (0, False), None, "A.f()V"),
             fact("A.g()V", (0, False), None, "A.main()V"), fact("A.g()V", (0, False)), fact("A.g()V", (1, False)), fact("A.h()V", (0, False))]
    watched = runs.Watched({}, facts)
    yield from differ("steps", 18, watched.count(TRACE.splitlines(keepends=True)))
    yield from differ("visits", [3, 2, 1, 1, 3, 1, 0, None], [each.most for each in facts])


NOTES = """class A {
    int a; // @WCA total<=3
    int b; // @WCA loop=2 // @WCA total=4 in A.main()V // @ total <= 5 (by the plan)
    //@ total <= 6

    int c; // @WCA total<=7
    int d; // @WCA total<=8 in
    int e; // @WCA total<=4294967296
    int f; // see total<=9
}
"""


def notes_of_visits(jop, folder):
    """which comments are notes of visits, and of which lines and methods"""
    found, wrong = notes.read(notes.Source("A.java", "A.java", NOTES.encode()), notes.TOTAL)
    yield from differ("notes", [(2, 3, None), (3, 4, "A.main()V"), (3, 5, None), (6, 6, None)], [(note.line, note.bound, note.root) for note in found])
    yield from differ("wrong", [6, 7, 8], [line for line, _ in wrong])
    yield from differ("loops", [(3, 2)], [(note.line, note.bound) for note in notes.read(notes.Source("A.java", "A.java", NOTES.encode()))[0]])


def facts_of_a_folder(jop, folder):
    """each change of the facts of a folder is told where it is checked"""
    return changes.told_of(jop, folder, changes.FACT_ROWS)


CASES = [by_facts, without_facts, broken_facts, wrong_facts, held_by_facts, counted_visits, notes_of_visits, facts_of_a_folder]
