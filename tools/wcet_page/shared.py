"""Notes that stand for two loops at once, of which they can bound but one. Not proved: a tool.

A note belongs to a line, and `headers` takes its number for each loop that is headed there (JVM Specification SE 8, 4.7.12: a
line of the source has instructions). Two loops, one within the other, have one line, or even one header, where the body of the
outer one begins with the inner one and nothing is tested before: `do { while (c) {`, `while (true) { while (c) {`.
"""
import re

from . import notes

APART = "give each loop a line and a note of its own: put a statement in front of the inner one, or that into a method of its own"
STRING = re.compile(r'"""(?:\\.|[^\\])*?"""|"(?:\\.|[^"\\\n])*"|\'(?:\\.|[^\'\\\n])*\'', re.S)
TOKEN = re.compile(r"[A-Za-z_$][\w$]*|\S")

# A field that is always true, so that a test of it has no code.
ALWAYS = re.compile(r"\bfinal\s+(?:\w+\s+)*boolean\s+([\w$]+)\s*=\s*true\s*[;,]")


def plain_text(text):
    """a source without comments, its texts as zeros"""
    _, code = notes.comments(text)
    return STRING.sub(lambda found: re.sub(r"[^\n]", "0", found[0]), "\n".join(code))


class Head:
    """the head of a loop: its word, the lines of it, whether a test stands in it and a start before the test, and the token behind it"""

    def __init__(self, word, first, last, is_tested, is_started, behind):
        self.word, self.first, self.last = word, first, last
        self.is_tested, self.is_started, self.behind = is_tested, is_started, behind


class Java:
    """the tokens of a source, and the heads of its loops by the number of their first token; a test of which no line has code is a constant,
    and so is one that names a field which is always true"""

    def __init__(self, text, is_code=lambda line: True, always=frozenset()):
        self.is_code, self.once = is_code, set()
        plain = plain_text(text)
        ends = [place for place, each in enumerate(plain) if each == "\n"]
        self.tokens, self.lines, line = [], [], 0
        for token in TOKEN.finditer(plain):
            while line < len(ends) and ends[line] < token.start():
                line += 1
            self.tokens.append(token[0])
            self.lines.append(line + 1)
        self.always = always | set(ALWAYS.findall(plain))
        closing = self.closing()
        heads = (at for at, word in enumerate(self.tokens) if word in ("do", "while", "for") and at not in closing | self.once)
        self.heads = {at: self.head(at) for at in heads}

    def closing(self):
        """the tokens `while` that end a `do`; `once` has those `do` that end with `while (false)`, which are no loops"""
        found, braces, pending = set(), [], []
        for at, word in enumerate(self.tokens):
            before = self.tokens[at - 1] if at else ""
            if word == "do":
                pending.append((len(braces), at))
            elif word == "{":
                braces.append(before == "do")
            elif word == "}" and braces:
                braces.pop()
            elif word == "while" and pending and pending[-1][0] == len(braces) and before in ("}", ";"):
                _, do = pending.pop()
                found.add(at)
                if self.tokens[at + 1:at + 4] == ["(", "false", ")"]:
                    self.once.add(do)
        return found

    def head(self, at):
        """the head of a loop that begins at a token"""
        word, line = self.tokens[at], self.lines[at]
        if word == "do" or self.tokens[at + 1:at + 2] != ["("]:
            return Head(word, line, line, False, False, at + 1)
        end, depth, parts = at + 1, 0, [[]]
        while end < len(self.tokens):
            depth += {"(": 1, ")": -1}.get(self.tokens[end], 0)
            if depth == 0:
                break
            if depth == 1 and self.tokens[end] == ";":
                parts.append([])
            elif end > at + 1:
                parts[-1].append(self.tokens[end])
            end += 1
        last = self.lines[min(end, len(self.lines) - 1)]
        if word == "while":
            is_tested = not self.is_always(parts[0]) and any(map(self.is_code, range(line, last + 1)))
            return Head(word, line, last, is_tested, False, end + 1)
        if len(parts) == 1:  # over the elements of an array: the array is taken first
            return Head(word, line, last, True, True, end + 1)
        return Head(word, line, last, bool(parts[1]) and not self.is_always(parts[1]), bool(parts[0]), end + 1)

    def is_always(self, test):
        """whether a test is `true`, or the name of a field that always is, as one may stand behind the name of its class"""
        return test == ["true"] or bool(test) and test[-1] in self.always and all(each == "." or each.isidentifier() for each in test)

    def body(self, at):
        """the first token of what stands at a token, braces and labels left out"""
        while at < len(self.tokens):
            if self.tokens[at] == "{" or at in self.once:
                at += 1
            elif self.tokens[at + 1:at + 2] == [":"] and self.tokens[at][0].isidentifier():
                at += 2
            else:
                break
        return at

    def together(self):
        """heads of loops that begin at one instruction, the outer ones first, each with the first and the last line at which that may stand"""
        for at in self.heads:
            found = [self.heads[at]]
            while not found[-1].is_tested:
                inner = self.heads.get(self.body(found[-1].behind))
                if inner is None or inner.is_started:
                    break
                found.append(inner)
            if len(found) > 1:
                last, first = found[-1], self.body(found[-1].behind)
                start = self.lines[min(first, len(self.lines) - 1)]
                yield found, (last.first, last.last) if last.is_tested else (start, start)


class Loops:
    """the loops of the methods of a program, of the class files: headers by line, what they have within them, and from where control goes back"""

    def __init__(self, methods, headers, nodes):
        self.methods, self.nodes, self.by_line = methods, nodes, {}
        for loop in headers.loops:
            if loop.at:
                self.by_line.setdefault(loop.at, []).append(loop)

    def code_lines(self, file):
        """the lines of a source at which instructions begin"""
        found = (m for m in range(len(self.methods.names)) if self.methods.is_own(m) and self.methods.file(m) == file)
        return {line for m in found for line in self.methods.lines(m)}

    def back(self, loop):
        """the lines from which control goes back to a header, one for each edge"""
        m = self.methods.number[loop.method]
        nodes = self.nodes[loop.method].get(loop.place, ())
        return [self.methods.line(m, place) for place, _ in self.methods.back(m, loop.place, nodes)]

    def is_left_at_its_line(self, loop):
        """whether an instruction of the line at which a loop is headed leads out of the loop"""
        m = self.methods.number[loop.method]
        graph, nodes = self.methods.graph(m)[0], self.nodes[loop.method].get(loop.place, ())
        here = [node for node in nodes if not node[1] and self.methods.line(m, node[0]) == loop.at[1]]
        return any(after not in nodes and not after[1] for node in here for after in graph.after[node])

    def within(self, at):
        """a loop headed at a line with one in it that is headed there, too; none where there are no such two"""
        found = self.by_line.get(at, [])
        pairs = [(outer, inner) for outer in found for inner in found if outer is not inner and outer.method == inner.method]
        return next(((outer, inner) for outer, inner in pairs if (inner.place, False) in self.nodes[outer.method].get(outer.place, ())), None)


def tell(lines, sources, loops, told):
    """tells of each line of bounds that is said of a line of a source at which two loops begin"""
    always = {name for source in sources.values() for name in ALWAYS.findall(plain_text(source.text))}
    begun = {file: list(Java(source.text, loops.code_lines(file).__contains__, always).together()) for file, source in sources.items()}
    for each in lines:
        where = each.text.rpartition(" loop<=")[0]
        file, _, line = where.rpartition(":")
        if " " in where or not line.isdigit():
            continue
        at, near = (file, int(line)), notes.AT if each.by == "note" else None
        pair = loops.within(at)
        if pair:
            outer, inner = pair
            text = f"one note for two loops, one within the other: {outer.method} {outer.place} and {inner.place} are both headed at line {line}"
            told.error("two-loops", text, each.file, each.line, near, APART)
            continue
        for loop in loops.by_line.get(at, []):
            heads = next((heads for heads, (first, last) in begun.get(file, ()) if first <= at[1] <= last), None)
            back = loops.back(loop)
            if heads and len(back) > 1:
                tell_of_heads(each, loop, heads, back, told)
            elif file not in sources and len(set(back)) > 1 and not loops.is_left_at_its_line(loop):
                text = f"control goes back to the loop at {where} from {lines_said(back)}: of two loops that begin there the bound has to hold together"
                told.warn("two-loops", text, each.file, each.line)


def lines_said(lines):
    """lines in words"""
    some = sorted(set(lines) - {None})
    return f"line{'s' if len(some) > 1 else ''} {' and '.join(map(str, some))}"


def tell_of_heads(each, loop, heads, back, told):
    """tells of heads of loops that share the header of a loop"""
    shown = " and ".join(f"`{head.word}` of line {head.first}" for head in heads)
    at = f"one instruction ({loop.method} {loop.place}), to which control goes back from {lines_said(back)}"
    text = f"one note for two loops: {shown} begin at {at}"
    cure = f"{APART}; or bound both together in a file of --bounds: `{loop.method} {loop.place} loop<=N`"
    told.error("two-loops", text, each.file, each.line, notes.AT if each.by == "note" else None, cure)
