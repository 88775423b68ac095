"""Reads the edits of crates/*/must-fail and crates/*/wrong, the functions that they change, and the lines
of crates/*/wrong/TRIED. For check_edits.py and try_edits.py. The text of this file is in the sums of TRIED,
so a change here has all edits tried anew."""
import glob
import hashlib
import os
import re
from dataclasses import dataclass

TOP = os.path.dirname(os.path.dirname(os.path.abspath(__file__)))
FOLDERS = ("must-fail", "wrong")
# The folders of a crate that a check reads.
PARTS = ("src", "specs", "proofs")
BEGINS = re.compile(r'^\s*(?:pub(?:\([a-z]+\))? )?(const )?(?:unsafe )?(?:extern "C" )?fn (\w+)')
# What a line of TRIED may say of how an edit was refused.
HOWS = ("by search", "by an answer")


@dataclass
class Edit:
    """A file of must-fail/ or wrong/: pairs of a file, an old and a new text, and the clauses that it names."""

    crate: str
    path: str
    text: str
    pairs: list
    clauses: list

    @property
    def name(self):
        return os.path.basename(self.path)


@dataclass
class Function:
    """The lines of a function in a file, counted from 0: that of its first attribute, its first one, the one that opens
    its body, and its last one. One that has no body has None there."""

    name: str
    head: int
    first: int
    body: int
    last: int
    is_const: bool


def text_of(path):
    """A file's text."""
    with open(path, encoding="utf-8") as it:
        return it.read()


def read_edit(crate, path):
    """The edit of a file."""
    text, pairs, clauses, file, old = text_of(path), [], [], None, None
    for line in text.splitlines():
        if line.startswith("file: "):
            file = line[6:]
        elif line.startswith("old: "):
            old = line[5:]
        elif line.startswith("new:") and file and old:
            pairs.append((file, old, line[4:].removeprefix(" ")))
        elif line.startswith("clause:"):
            clauses.append(line[7:].strip())
    return Edit(crate, path, text, pairs, clauses)


def edits_of(crate, top=TOP):
    """The edits of a crate, by their names."""
    paths = [it for folder in FOLDERS for it in glob.glob(f"{top}/crates/{crate}/{folder}/*.edit")]
    return [read_edit(crate, it) for it in sorted(paths, key=os.path.basename)]


def clause_of(goal):
    """The clause that a goal is of: what follows `-clause-`, `returns` where the contract is one clause with no name,
    and else the whole name."""
    _, mark, clause = goal.partition("-clause-")
    if mark:
        return clause
    return "returns" if goal.split("-")[0] == "returns" else goal


def functions_in(text):
    """The functions of a source file, which is in the layout of `rt fmt`."""
    lines = text.split("\n")
    found = [function_at(lines, at) for at, line in enumerate(lines) if BEGINS.match(line)]
    return [it for it in found if it]


def head_of(lines, first):
    """The line of the first attribute of the function that begins on a line, or that line."""
    head = at = first
    while at > 0 and not lines[at - 1].lstrip().startswith("//") and (at < head or lines[at - 1].endswith("]")):
        at -= 1
        if lines[at].lstrip().startswith("#["):
            head = at
    return head


def owner_of(text, function):
    """The type whose `impl` a function stands in, or nothing."""
    for line in reversed(text.split("\n")[: function.first]):
        if line == "}":
            return ""
        if line.startswith("impl"):
            head = re.sub(r"<[^<>]*>", "", re.sub(r"<[^<>]*>", "", line)).removeprefix("impl").removesuffix("{")
            return head.split(" for ")[-1].split("::")[-1].strip()
    return ""


def function_at(lines, first):
    """The function that begins on a line, or None where its end is not found."""
    begins, depth = BEGINS.match(lines[first]), 0
    indent = lines[first][: len(lines[first]) - len(lines[first].lstrip())]
    made = lambda body, last: Function(begins[2], head_of(lines, first), first, body, last, bool(begins[1]))
    for at in range(first, len(lines)):
        line = lines[at]
        depth += sum(map(line.count, "([{")) - sum(map(line.count, ")]}"))
        if depth == 0 and line.endswith(";"):
            return made(None, at)
        if depth == 0 and (line == f"{indent}{{}}" or at == first and line.endswith("}")):
            return made(at, at)
        if depth == 1 and (line == f"{indent}{{" or line.endswith("{") and (at == first or line.startswith(f"{indent})"))):
            ends = (end for end in range(at + 1, len(lines)) if lines[end] == f"{indent}}}")
            return next((made(at, end) for end in ends), None)
    return None


def statements_of(text):
    """A source file without its comments and without the bodies of its functions, but for those of a `const fn`."""
    lines = text.split("\n")
    for it in functions_in(text):
        if it.body is not None and not it.is_const:
            for at in range(it.body + 1, it.last):
                lines[at] = ""
            lines[it.body] = lines[it.body] if it.body == it.first or lines[it.body].strip() not in ("{", "{}") else ""
    kept = (it.strip() for it in lines)
    return "\n".join(it for it in kept if it and not it.startswith("//"))


def sources_below(folder, part, ending):
    """The files of a part of a crate, as src, with their paths in the crate."""
    for path in sorted(glob.glob(f"{folder}/{part}/**/*{ending}", recursive=True)):
        yield os.path.relpath(path, folder), text_of(path)


def listed(top=TOP):
    """By each crate its line of crates.txt, as a list of words."""
    found = {}
    for line in text_of(f"{top}/crates.txt").splitlines():
        words, colon, deps = line.partition("#")[0].partition(":")
        if colon:
            found[words.split()[0]] = [*words.split(), ":", *deps.split()]
    return found


def libraries_of(crate, lines):
    """The crates of the repository that a crate uses, and those below them, by their names."""
    found, left = set(), [crate]
    while left:
        words = lines[left.pop()]
        more = {it for it in words[words.index(":") + 1 :] if it in lines} - found
        found |= more
        left += more
    return sorted(found)


def tried_of(crate, top=TOP):
    """The lines of a crate's file wrong/TRIED: by the name of each edit its sum, its clause, and how it was refused."""
    path = f"{top}/crates/{crate}/wrong/TRIED"
    lines = text_of(path).splitlines() if os.path.exists(path) else []
    rows = (it.split(" ", 3) for it in lines)
    return {row[0]: tuple(row[1:]) for row in rows if len(row) == 4}


def sum_of(*parts):
    """The sum of some values."""
    return hashlib.sha256(repr(parts).encode()).hexdigest()[:32]
