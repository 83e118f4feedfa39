"""The definitions of specs/, and what each rests on: by the lines that begin with `use`, and by the names that stand in its text. A name
counts as used wherever it stands in a definition's text, bound variables of the same name included, so that rather too much is listed
than too little. Read by tests/spec_files and docs/book."""
import functools
import os
import re

TOP = os.path.dirname(os.path.dirname(os.path.realpath(__file__)))
ANSWER, CLAUSE, PROCESS = "crates/jop_cli/specs/Answer.antt", "Answered", "crates/jop/specs/Answers.antt"
USE = re.compile(r"^(?:ghost |pub )?use Rattle\.([a-z_0-9]+)\.specs\.([\w.'-]+?)(?:\.\{([^}]*)\}|(?: as (\w+))?);?$", re.M)
HEAD = re.compile(r"^(?:abbrev |unfoldable )*(?:pub )?(?:record |data )?([^\s:({]+)(?= ?[:({])")
INNER = re.compile(r"^  (?:pub )?(?:record |data )([^\s:({]+)")
MAKER = re.compile(r"^ {2,4}([^\s:({-]+(?: [^\s:({-]+)*) ?:")
TOKEN = re.compile(r"[^\s(){}\[\];,→×⊎λ¬|]+")


class Definition:
    """a definition of a file, by all names that it gives, with its rows, the comment above it, and the heads of the modules around it"""

    def __init__(self, path, names, comment, rows, around):
        self.path, self.names, self.comment, self.rows, self.around = path, names, comment, rows, around

    def lines(self):
        return sum(1 for row in self.rows if row.strip() and not row.lstrip().startswith("--"))

    def tokens(self):
        text = "\n".join(re.sub(r"(?:^|\s)--.*", "", row) for row in (*self.around, *self.rows))
        return set(TOKEN.findall(re.sub(r"^  pub \w+ :", "  :", text, flags=re.M)))

    def text(self):
        return "\n".join([*self.comment, *self.around, *self.rows]).rstrip()


def read(path):
    with open(f"{TOP}/{path}", encoding="utf-8") as file:
        return file.read()


def file_of(crate, parts):
    """the file of specs/ that these parts of a name begin with, and the parts behind it; in a folder of specs/ a file is two names"""
    for count in range(len(parts), 0, -1):
        path = f"crates/{crate}/specs/{'/'.join(parts[:count])}.antt"
        if os.path.isfile(f"{TOP}/{path}"):
            return path, parts[count:]
    return None, parts


def names_of(listed):
    """the names of a list of a `use` line, each with what it is called here"""
    for item in filter(None, (it.strip() for it in listed.split(","))):
        name, _, called = item.partition(" as ")
        yield (called or name).strip("◌"), name


def scope_of(text):
    """what the `use` lines of a text name: by its name here, a thing `(crate, parts, name)`, or a file `(crate, parts, None)`; and those
    that are handed on"""
    scope, passed = {}, set()
    for found in USE.finditer(text):
        crate, parts = found[1], found[2].split(".")
        if crate == "std":
            continue
        if found[3] is None:
            scope[found[4] or parts[-1]] = (crate, parts, None)
            continue
        for called, name in names_of(found[3]):
            scope[called] = (crate, parts, name)
            if found[0].startswith("pub "):
                passed.add(called)
    return scope, passed


def is_head(row):
    return bool(row) and not row[0].isspace() and not row.startswith(("--", "use ", "pub use ", "pub mod ", "mod "))


def names_in(rows):
    """the names that a definition gives: its own, those of the types of a block `mutual`, and what makes a value of a type"""
    head = HEAD.match(rows[0])
    names = [head[1]] if head and rows[0] != "mutual" else []
    names += [found[1] for row in rows[1:] if (found := INNER.match(row))]
    if any(re.match(r"\s*(?:pub )?data ", row) for row in rows):
        for row in rows[1:]:
            found = MAKER.match(row)
            names += found[1].split() if found and not INNER.match(row) else []
    return [name.strip("◌") for name in names]


def levelled(text):
    """the rows of a text, those within a `module` where all others begin, each with the heads of the modules around it"""
    heads = []
    for row in text.split("\n"):
        indent = len(row) - len(row.lstrip())
        if row.strip():
            heads = heads[:indent // 2]
        yield row[2 * len(heads):], tuple(heads)
        if re.match(r"\s*module ", row):
            heads = [*heads, row.strip()]


def is_clause(row, current):
    """whether a row at the left edge goes on with the definition before it"""
    if not current or current.rows[0].startswith("module ") or row.startswith(("abbrev ", "unfoldable ", "pub ", "record ", "data ", "mutual", "infix", "module ")):
        return False
    head = HEAD.match(row)
    return not re.match(r"[^\s:({]+ :", row) or bool(head and head[1] in current.names)


def split(path, text):
    """the definitions of a text, in order"""
    found, comment = [], []
    for row, around in levelled(text):
        current = found[-1] if found else None
        if row.startswith("--"):
            comment.append(row)
            continue
        if not row.strip() or row.startswith(("use ", "pub use ", "pub mod ", "mod ")):
            # what a blank line parts from the next definition is a heading
            comment = []
            continue
        if is_head(row) and not is_clause(row, current):
            found.append(Definition(path, [], comment, [row], around))
        else:
            current.rows += [*comment, row]
        found[-1].names = names_in(found[-1].rows)
        comment = []
    return found


@functools.lru_cache(maxsize=None)
def parsed(path):
    """the definitions of a file by name, the scope of its text, and the names that it hands on"""
    text = read(path)
    by_name = {}
    for definition in split(path, text):
        for name in definition.names:
            by_name.setdefault(name, definition)
    return by_name, *scope_of(text)


def named_in(path, name):
    """the definition of this name that a file gives or hands on"""
    by_name, scope, passed = parsed(path)
    if name in by_name:
        return by_name[name]
    return reached(scope[name])[0] if name in passed else None


def reached(thing, more=None):
    """the definition that a thing of a scope is, or the type of the code"""
    crate, parts, name = thing
    name = name or more
    if parts[0] == "declared":
        # what makes a value of a type stands for the type, and a constant for itself
        kept = [it for it in parts[1:] if it not in ("TheVariants", "TheConstants")]
        is_type = kept and kept[-1][:1].isupper()
        return None, (crate, kept[-1] if is_type else name or "")
    path, rest = file_of(crate, parts)
    if path is None:
        return None, None
    wanted = rest[0] if rest else name
    return (named_in(path, wanted.strip("◌")) if wanted else None), None


def uses(tokens, by_name, scope):
    """the definitions and the types of the code that these words name"""
    definitions, types = [], set()
    for token in sorted(tokens):
        first, _, rest = token.strip(".").partition(".")
        if first in by_name:
            definitions.append(by_name[first])
        elif first in scope:
            definition, type_ = reached(scope[first], rest.split(".")[0] if rest else None)
            definitions += [definition] if definition else []
            types |= {type_} if type_ and type_[1] else set()
    return definitions, types


@functools.lru_cache(maxsize=None)
def uses_of(definition):
    by_name, scope, _ = parsed(definition.path)
    return uses(definition.tokens(), by_name, scope)


def closure(starts, closed=()):
    """the definitions that these rest on, themselves among them, and the types of the code; those that are closed aren't opened"""
    seen, types, left = {}, set(), list(starts)
    while left:
        definition = left.pop()
        if definition not in seen:
            some, more = ([], set()) if definition in closed else uses_of(definition)
            seen[definition] = some
            types |= more
            left += some
    return seen, types


def book_of(start, opened=False):
    """what a claim rests on; the clause, which the contract of `jop` shows of each call, isn't opened for a statement about a call"""
    clause = named_in(ANSWER, CLAUSE)
    return closure([start], () if opened or start is clause or start.path == PROCESS else (clause,))


def in_order(seen):
    """files with the definitions of these that stand in them: a file behind those that its definitions use, what stands first in a file first"""
    by_path, order, begun = {}, [], set()
    for definition in seen:
        by_path.setdefault(definition.path, set()).add(definition)

    def visit(path):
        if path in begun:
            return
        begun.add(path)
        for other in sorted({it.path for definition in by_path[path] for it in seen[definition]} - {path}):
            visit(other)
        own = list(dict.fromkeys(it for it in parsed(path)[0].values() if it in by_path[path]))
        order.append((path, own))

    for path in sorted(by_path):
        visit(path)
    return order


def contract_tokens(text):
    """the words of the contracts of the public functions of a source"""
    tokens, inside = set(), False
    for row in text.splitlines():
        if re.match(r" *pub (?:const )?fn ", row):
            inside = True
        if inside and row.strip() in ("{", "{}"):
            inside = False
        if inside and not row.lstrip().startswith("//"):
            tokens |= set(TOKEN.findall(row))
    return tokens


def of_source(path):
    """what the contracts of a source's public functions name"""
    text = read(path)
    return uses(contract_tokens(text), {}, scope_of(text)[0])


def all_files():
    for folder, _, names in sorted(os.walk(f"{TOP}/crates")):
        if "/specs" in folder and "/out" not in folder:
            yield from (os.path.relpath(f"{folder}/{name}", TOP) for name in sorted(names) if name.endswith(".antt"))


def find(name):
    """the definitions of this name: of the top crate where it has one"""
    found = [parsed(path)[0][name] for path in all_files() if name in parsed(path)[0]]
    return [it for it in found if it.path.startswith("crates/jop_cli/")] or found
