#!/usr/bin/env python3
"""Writes docs/proved.md and docs/api.md from the doc comments of public functions and the names of their clauses.

  tools/write_proved.py            writes the pages
  tools/write_proved.py --check    tells whether they are as they would be written; its status is 1 where one is not

docs/proved.md: for each library of crates.txt: what its root file says of it, and each public function with the first
paragraph of its doc comment and the names of its clauses, in their groups. Of a function that does
nothing and whose clauses are laws each law is told with the comment of its definition.
docs/api.md: each call of `Fs` with its signature, its whole doc comment and the names of its clauses.
"""
import glob
import os
import re
import sys

TOP = os.path.dirname(os.path.dirname(os.path.abspath(__file__)))
PAGE = f"{TOP}/docs/proved.md"
CALLS_PAGE = f"{TOP}/docs/api.md"
CALLS = f"{TOP}/crates/undofs/src/fs.rt"
HEAD = """# What is proved, crate by crate

Every function is safe on every input that its `requires` allows, and returns. Beyond that its contract says what follows: here stand the public functions of each crate, each with what its doc comment says first, and in parentheses the names of the clauses of its contract that the checker has proved. What a word of them means stands in `specs/` of the crates, and [docs/definitions.md](definitions.md) walks through these.

Not proved: that memory is there where a call wants it. After a cut during a sync a restart finds the history after it or one from before it. Which one is not promised.

`tools/write_proved.py` writes this page; [docs/testing.md](testing.md) tells what only tests show.
"""
CALLS_HEAD = """# The calls of a mounted file system

Each call of `Fs` of the crate `undofs`: its signature, what it does and refuses, and the names of the clauses that promise it ([docs/proved.md](proved.md#undofs)). `Fault` has the refusals with their words and numbers ([docs/scripts.md](scripts.md#the-numbers-of-refusals)); a number without a unit counts bytes of a file, and `budget` counts blocks. *Cost* is one such call on a flash with pages of 256 bytes in blocks of 4,096, with no node in memory: how many pages are read and programmed, and blocks erased ([docs/speed.md](speed.md)).
"""
FUNCTION = re.compile(r"^\s*(pub )?(?:pub\(\w+\) )?(?:const )?fn (\w+)")
BLOCK = re.compile(r"^(pub )?(impl|trait)\b(.*?)\{?$")
CLAUSE = re.compile(r"^\s*ensures (?:(\w+) )?\{ ?(.*)$")
DEFINITION = re.compile(r"^(?:abbrev |record |data )?pub (?:abbrev |record |data )?(\w+)|^pub (?:record|data) (\w+)")


def read(path):
    with open(path, encoding="utf-8") as text:
        return text.read()


def libraries():
    """The libraries of crates.txt, in its order."""
    for line in read(f"{TOP}/crates.txt").splitlines():
        name = line.split(":")[0].split()[0] if line.strip() and not line.startswith("#") else ""
        if name and os.path.isfile(f"{TOP}/crates/{name}/src/lib.rt"):
            yield name


def comments():
    """The comment of each definition of specs/, by its crate and its name; by no crate the first one of that name."""
    told = {"": {}}
    for path in sorted(glob.glob(f"{TOP}/crates/*/specs/**/*.antt", recursive=True)):
        above, crate = [], os.path.relpath(path, f"{TOP}/crates").split(os.sep)[0]
        for line in read(path).splitlines():
            if line.startswith("-- "):
                above.append(line[3:].strip())
                continue
            found = DEFINITION.match(line)
            if found and above:
                for owner in ("", crate):
                    told.setdefault(owner, {}).setdefault(found.group(1) or found.group(2), " ".join(above))
            above = []
    return told


def exported(root):
    """The names that a root file hands out."""
    named = re.findall(r"^pub use ([^;]+);", root, re.M)
    return {it for use in named for it in re.findall(r"\w+", use)}


def said(lines, mark):
    """The first paragraph of a comment, as one line."""
    words = []
    for line in lines:
        line = line.strip()[len(mark) :].strip()
        if not line:
            break
        words.append(line)
    return re.sub(r"\[(`[^`]+`)\](?:\([^)]*\))?", r"\1", " ".join(words))


def is_body(line):
    """Whether the body of a function begins in this line."""
    return line.strip() in ("{", "{}")


def is_last_of_signature(line, begins):
    """Whether a signature ends in this line, in which it begins or not."""
    return not line.endswith("(") if begins else line.strip().startswith(")")


def without_body(line):
    """A line of a signature without the begin of a body, and whether there was one: such a function has no clause."""
    bare = re.sub(r" \{\}?$", "", line)
    return bare, bare != line


class Function:
    def __init__(self, owner, name, doc):
        self.name = f"{owner}::{name}" if owner else name
        self.doc = doc
        self.groups = []
        self.bare = 0
        self.laws = []

    def take(self, line):
        """Takes a line of the contract."""
        found = CLAUSE.match(line)
        if found:
            name, what = found.groups()
            if name:
                self.groups = self.groups or [[]]
                self.groups[-1].append(name)
            else:
                self.bare += 1
            self.laws.append((name, re.findall(r"\b[A-Z]\w*Law\b", what)))
        elif line.strip().startswith("// ") and self.groups != [[]]:
            self.groups.append([])

    def text(self, told):
        """The lines of the page."""
        names = "; ".join(", ".join(f"`{it}`" for it in group) for group in self.groups if group)
        lines = [f"- `{self.name}`: {self.doc}" + (f" ({names})" if names else "")]
        for name, laws in self.laws:
            for law in laws:
                if law in told:
                    lines.append(f"  - `{law}`" + (f" (`{name}`)" if name else "") + f": {told[law]}.")
        return lines


def owner_of(head):
    """The type or trait of a block, by its first line."""
    head = re.sub(r"<[^<>]*(?:<[^<>]*(?:<[^<>]*>[^<>]*)*>[^<>]*)*>", "", head)
    parts = re.findall(r"[A-Za-z_]\w*", head.split(" where ")[0].split(":")[0])
    return parts[parts.index("for") + 1] if "for" in parts else (parts[0] if parts else "")


def functions_in(path, names):
    """The public functions of a file whose names, or the names of whose types, are handed out."""
    owner, in_trait, doc, current, in_signature = "", False, [], None, False
    for line in read(path).splitlines():
        block = BLOCK.match(line)
        if block:
            owner, in_trait, doc, current = owner_of(block.group(3)), block.group(2) == "trait", [], None
            continue
        if line == "}":
            owner, in_trait = "", False
        if line.strip().startswith("///"):
            doc.append(line)
            continue
        found = FUNCTION.match(line)
        if found:
            current = None
            inner = line.startswith(" ")
            public = found.group(1) or (in_trait and inner)
            if doc and public and (owner if inner else found.group(2)) in names:
                current = Function(owner if inner else "", found.group(2), said(doc, "///"))
                yield current
        elif current and is_body(line):
            current = None
        elif current and not in_signature:
            current.take(line)
        if found or in_signature:
            in_signature = not is_last_of_signature(line, found)
            current = None if not in_signature and without_body(line)[1] else current
        if line.strip() and not line.strip().startswith("#["):
            doc = []


def section(name, told):
    """The section of a library, or nothing where it hands out no function."""
    root = read(f"{TOP}/crates/{name}/src/lib.rt")
    names = exported(root) | {it for it in re.findall(r"^pub fn (\w+)", root, re.M)}
    lines = []
    for path in sorted(glob.glob(f"{TOP}/crates/{name}/src/**/*.rt", recursive=True)):
        for function in list(functions_in(path, names)):
            if function.groups or function.bare:
                lines += function.text({**told[""], **told.get(name, {})})
    about = said([it for it in root.splitlines() if it.startswith("//!")], "//!")
    return [f"## `{name}`", about, "", *lines, ""] if lines else []


def linked(text):
    """The text with each page that it names as a link."""
    parts = re.split(r"(\[[^\]]*\]\([^)\s]+\))", text)
    named = (re.sub(r"docs/(\w+\.md)", r"[docs/\1](\1)", it) for it in parts[::2])
    return "".join(a + b for a, b in zip(named, [*parts[1::2], ""]))


def page():
    told = comments()
    lines = [line for name in libraries() for line in section(name, told)]
    parts = [line[3:].replace("`", "") for line in lines if line.startswith("## ")]
    listed = "Sections: " + " · ".join(f"[{it}](#{it})" for it in parts) + "."
    return linked("\n".join([HEAD, listed, "", *lines]).rstrip("\n") + "\n")


def paragraphs(doc):
    """A doc comment as paragraphs, each one line, with its links as names."""
    texts = "\n".join(line.strip()[len("///") :].strip() for line in doc).split("\n\n")
    return [re.sub(r"\[(`[^`]+`)\](?:\([^)]*\))?", r"\1", " ".join(text.split())) for text in texts]


def calls():
    """The calls of `Fs`: for each its doc comment, the lines of its signature and the names of its clauses."""
    doc, signature, clauses, in_signature = [], [], [], False
    for line in read(CALLS).split("impl<'f, F: Flash> Fs<'f, F> {")[1].splitlines():
        text = line.strip()
        if text.startswith("///"):
            doc.append(line)
        elif text.startswith("pub fn "):
            signature, clauses, in_signature = [line[4:]], [], not is_last_of_signature(line, True)
        elif signature and in_signature:
            signature.append(line[4:])
            in_signature = not is_last_of_signature(line, False)
        elif signature and CLAUSE.match(line):
            clauses.append(CLAUSE.match(line).group(1) or "returns")
        elif text and not signature:
            doc = []
        if signature and not in_signature:
            signature[-1], has_body = without_body(signature[-1])
            if has_body or is_body(line):
                yield doc, signature, clauses
                doc, signature = [], []


def calls_page():
    about = [line for line in read(CALLS).split("#[derive(Drop)]\npub struct Fs")[0].splitlines() if line.startswith("///")]
    lines = [CALLS_HEAD, *paragraphs(about)[1:], ""]
    for doc, signature, clauses in calls():
        name = re.search(r"fn (\w+)", signature[0])[1]
        told = "\n\n".join(paragraphs(doc))
        promised = ", ".join(f"`{it}`" for it in clauses) or "no clause of its own"
        lines += [f"## `{name}`", "", "```rust", *signature, "```", "", told, "", f"Promised by {promised}.", ""]
    names = [line[3:].strip("`") for line in lines if line.startswith("## ")]
    lines.insert(1, "Sections: " + " · ".join(f"[{it}](#{it})" for it in names) + ".\n")
    return linked("\n".join(lines).rstrip("\n") + "\n")


def pages():
    return {PAGE: page(), CALLS_PAGE: calls_page()}


def stale():
    """The pages that are not as they would be written."""
    return [os.path.relpath(path, TOP) for path, text in pages().items() if not os.path.isfile(path) or read(path) != text]


def main():
    if sys.argv[1:] == ["--check"]:
        for name in stale():
            print(f"{name} is not as tools/write_proved.py writes it")
        return 1 if stale() else 0
    for path, text in pages().items():
        with open(path, "w", encoding="utf-8") as out:
            out.write(text)
    return 0


if __name__ == "__main__":
    sys.exit(main())
