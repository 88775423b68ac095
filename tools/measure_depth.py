#!/usr/bin/env python3
"""Tells the longest chain of calls of this repository's own functions from one function to another.

  tools/measure_depth.py FROM TO [--through NAME ..] [--without NAME ..] [--unseen]

A NAME is `crate::function`, `crate::Type::method` or `crate::Trait::method`; the chain is one that goes through those of
--through, in their order, and through none of --without. It prints a function a line, with a `-` where its body is one call of an own function, and then how
many there are. The status is 1 where there is no chain. From a line of a script to a page of the flash, for `write`:

  tools/measure_depth.py script_runs::run_script flash_model::Flash::program --through working_state::State::write_file

It reads the sources of the crate of FROM and of those below it. A call of a method is followed by the type of what it is called
on, as far as declarations, `let`, `match` and what calls answer tell it; where they do not, by its name, if only one function
has it, and --unseen names the other ones. A method of a trait leads to those of all types that have it. Not seen are calls
of functions that are passed as values, of operators, and those that the language makes itself (drops). Nor is it looked at
whether a chain can be: that a branch is taken in one call and another one in the next. A function that comes to itself is counted once.
"""
import argparse
import glob
import os
import re
import sys
from collections import defaultdict

TOP = os.path.dirname(os.path.dirname(os.path.abspath(__file__)))
TOKEN = re.compile(r"[A-Za-z_]\w*|'[a-z_]\w*|\d\w*|::|=>|->|\.\.=?|[<>=!]=|&&|\|\||\S")
WORD = re.compile(r"[A-Za-z_]\w*$")
FUNCTION = re.compile(r"( *)(?:pub(?:\(\w+\))? )?(?:const |final )*fn (\w+)")
BLOCK = re.compile(r"(?:pub(?:\(\w+\))? )?(impl|trait|struct|enum)\b")
CLAUSE = re.compile(r"\s*(requires|ensures|decreases|ghost)\b")
WRAPS = {"Ok", "Some"}
# Methods of std that answer what they are called on, or what it refers to.
SAME = {"as_mut", "as_ref", "clone", "by_ref", "iter", "iter_mut", "into_iter", "as_slice", "ok_or", "ok"}
# Methods of std, of which an own one of that name is not meant where a type is not known.
OF_STD = SAME | {"get", "get_mut", "push", "pop", "len", "next", "insert", "remove", "contains", "read", "write", "take", "fill", "end", "find", "position", "is_empty", "call", "from", "map", "list", "as_bytes", "replace", "add", "end", "last", "first", "more"}


def plain(text):
    """A text without comments, strings, characters, and signs that look like brackets of types."""
    text = re.sub(r'"(?:[^"\\]|\\.)*"|b?\'(?:[^\'\\]|\\.)\'', '0', text)
    return re.sub(r" (<|>|<<|>>|>=) ", " | ", re.sub(r"//[^\n]*", "", text))


def closing(tokens, at):
    """Where the bracket that opens at a place closes."""
    depth = 0
    for place in range(at, len(tokens)):
        depth += tokens[place] in ("(", "[", "{", "<")
        depth -= tokens[place] in (")", "]", "}", ">")
        if depth == 0:
            return place
    return len(tokens) - 1


def split(tokens, at=","):
    """The parts between the commas that stand in no bracket."""
    parts, depth = [[]], 0
    for token in tokens:
        depth += token in ("(", "[", "{", "<")
        depth -= token in (")", "]", "}", ">")
        if token == at and depth == 0:
            parts.append([])
        else:
            parts[-1].append(token)
    return [part for part in parts if part]


class Type:
    """A type as it is written, and the file in whose words, with the bounds of its parameters."""

    def __init__(self, tokens, file, bounds):
        self.tokens = [it for it in tokens if it not in ("&", "mut", "dyn", "impl") and not it.startswith("'")]
        self.file, self.bounds = file, bounds

    def head(self):
        words = [it for it in self.tokens[: (self.tokens + ["<"]).index("<")] if WORD.match(it)]
        return words[-1] if words else ""

    def inner(self, number=0):
        """One of its parameters, or of its places where it is a tuple."""
        opens = next((at for at, it in enumerate(self.tokens) if it in ("<", "(", "[")), None)
        if opens is None:
            return None
        parts = split(self.tokens[opens + 1 : closing(self.tokens, opens)])
        return Type(parts[number], self.file, self.bounds) if number < len(parts) else None


class Function:
    def __init__(self, file, owner, of_trait, name, head, bounds, body):
        self.file, self.owner, self.of_trait, self.name, self.body = file, owner, of_trait, name, body
        head = head[head.index("fn") :]
        opens = closing(head, 2) + 1 if head[2] == "<" else 2
        ends = closing(head, opens)
        self.bounds = {**bounds, **bounds_of(head[:opens])}
        self.params = {}
        for part in split(head[opens + 1 : ends]):
            if ":" in part:
                at = part.index(":")
                self.params[part[at - 1]] = Type(part[at + 1 :], file, self.bounds)
        self.answer = Type(head[ends + 2 :], file, self.bounds) if head[ends + 1 : ends + 2] == ["->"] else None
        self.full = "::".join(filter(None, [file.crate, owner, name]))


def bounds_of(tokens):
    """The parameters of a head, each with the traits that bound it."""
    opens = tokens.index("<") if "<" in tokens else None
    found = {}
    for part in split(tokens[opens + 1 : closing(tokens, opens)]) if opens is not None else []:
        if not part[0].startswith("'"):
            found[part[0]] = [[it for it in bound if WORD.match(it)][0] for bound in split(part[2:], "+") if WORD.match(bound[0])]
    return found


class File:
    """A source file: what it imports, and the types and functions that it has."""

    def __init__(self, crate, path):
        self.crate, self.module = crate, os.path.basename(path)[:-3]
        with open(path, encoding="utf-8") as text:
            self.lines = plain(text.read()).split("\n")
        self.imports, self.shown, self.types, self.functions = {}, {}, {}, []
        for found in re.finditer(r"^( *pub(?:\(crate\))? )?use ([^;]+);", "\n".join(self.lines), re.M):
            for name, path in self.paths(TOKEN.findall(found[2]), []):
                (self.shown if found[1] and self.module == "lib" else self.imports)[name] = path
                self.imports[name] = path
        self.read()

    def paths(self, tokens, before):
        if "{" in tokens:
            at = tokens.index("{")
            before = before + [it for it in tokens[:at] if it != "::"]
            for part in split(tokens[at + 1 : closing(tokens, at)]):
                yield from self.paths(part, before)
        else:
            words = before + [it for it in tokens if it != "::"]
            name = words.pop() if "as" in words else words[-1]
            yield name, [it for it in words if it != "as"]

    def read(self):
        at, owner, of_trait, bounds = 0, None, None, {}
        while at < len(self.lines):
            block, function = BLOCK.match(self.lines[at]), FUNCTION.match(self.lines[at])
            if self.lines[at].startswith("}"):
                owner, of_trait, bounds = None, None, {}
            if block:
                ends = at
                while not re.search(r"[{;]", self.lines[ends]):
                    ends += 1
                head = TOKEN.findall(" ".join(self.lines[at : ends + 1]))
                kind = head.index(block[1])
                bounds = self.bounds(head, kind)
                if block[1] == "impl":
                    of_trait, owner = self.parts_of_impl(head, kind)
                else:
                    owner, of_trait = head[kind + 1], head[kind + 1] if block[1] == "trait" else None
                    self.types[owner] = (block[1], self.fields(at, ends), bounds)
                    if block[1] in ("struct", "enum"):
                        owner, of_trait = None, None
                at = ends
            elif function:
                at = self.read_function(at, function, owner, of_trait, bounds)
            at += 1

    def bounds(self, head, kind):
        """The bounds of the parameters of an impl, or of a type."""
        opens = kind + 1 if head[kind] == "impl" else kind + 2
        return bounds_of(head[opens : closing(head, opens) + 1]) if head[opens] == "<" else {}

    def parts_of_impl(self, head, kind):
        """The trait of an impl, if it is of one, and the type."""
        at = closing(head, kind + 1) + 1 if head[kind + 1] == "<" else kind + 1
        rest = head[at : head.index("{", at)]
        trait, kept = None, rest
        if "for" in rest:
            trait, kept = Type(rest[: rest.index("for")], self, {}).head(), rest[rest.index("for") + 1 :]
        return trait, Type(kept, self, {}).head()

    def fields(self, first, opens):
        """The fields of a struct, or of the variants of an enum, as their tokens."""
        ends = next((at for at in range(opens, len(self.lines)) if self.lines[at].startswith("}") or self.lines[at].endswith(";")), opens)
        return TOKEN.findall(" ".join(it for it in self.lines[first : ends + 1] if not re.match(r"\s*(#|ghost|//)", it)))

    def read_function(self, at, found, owner, of_trait, bounds):
        margin, ends = found[1], at
        while not (self.lines[ends].endswith((";", "{}")) or re.match(rf"{margin}(\{{|\S.* \{{)$", self.lines[ends])):
            ends += 1
        clauses = next((it for it in range(at + 1, ends) if CLAUSE.match(self.lines[it])), ends)
        head = TOKEN.findall(" ".join(self.lines[at : clauses + (clauses == ends)]).rstrip("{; "))
        body = []
        if re.match(rf"{margin}(\{{|\S.* \{{)$", self.lines[ends]):
            last = next(it for it in range(ends, len(self.lines)) if self.lines[it] == margin + "}")
            body = TOKEN.findall(" ".join(it for it in self.lines[ends + 1 : last] if not re.match(r"\s*(ghost|#)", it)))
            ends = last
        self.functions.append(Function(self, owner, of_trait, found[2], head, bounds, body))
        return ends


class Calls:
    """The functions of some crates, and which calls which."""

    def __init__(self, crates):
        self.files = {name: [File(name, it) for it in sorted(glob.glob(f"{TOP}/crates/{name}/src/**/*.rt", recursive=True))] for name in crates}
        self.functions = [it for files in self.files.values() for file in files for it in file.functions]
        self.named, self.free, self.methods = defaultdict(list), defaultdict(list), defaultdict(list)
        for it in self.functions:
            self.named[it.name].append(it)
            (self.methods if it.owner else self.free)[(it.file.crate, it.owner, it.name) if it.owner else (it.file.crate, it.name)].append(it)
        self.unseen, self.edges, self.made = set(), {}, defaultdict(list)
        for it in self.functions:
            self.edges[it] = Body(self, it).calls()
        for it in self.functions:
            if it.of_trait:
                trait = self.find(it.file, it.of_trait)
                for above in self.methods.get((*trait, it.name), []) if trait and trait[1] != it.owner else []:
                    self.made[above].append(it)

    def below(self, it):
        """What a function calls: of a trait's method those of the types that have it, and itself."""
        return list(dict.fromkeys(each for called in self.edges[it] for each in [*self.made[called], called]))

    def find(self, file, name):
        """The crate and the name of a type that a file has a word for."""
        if name in file.types:
            return file.crate, name
        path = file.imports.get(name)
        return self.found_in(path[0] if path[0] not in ("crate", "super") else file.crate, path[-1]) if path else None

    def found_in(self, crate, name):
        files = self.files.get(crate, [])
        if any(name in it.types for it in files):
            return crate, name
        path = next((it.shown[name] for it in files if name in it.shown), [crate])
        return self.found_in(path[0], path[-1]) if path[0] in self.files and path[0] != crate else None

    def free_functions(self, file, words):
        """What a path to a function that has no owner names."""
        if len(words) == 1 and words[0] not in file.imports:
            return [it for it in self.free.get((file.crate, words[0]), []) if it.file is file]
        words = file.imports.get(words[0], words[:1]) + words[1:]
        crate = file.crate if words[0] in ("crate", "super") else words[0]
        found = self.free.get((crate, words[-1]), [])
        if not found:
            shown = next((it.shown[words[-1]] for it in self.files.get(crate, []) if it.module == "lib" and words[-1] in it.shown), None)
            return self.free.get((shown[0], shown[-1]), []) if shown else []
        return [it for it in found if len(words) > 2 and it.file.module == words[-2]] or found

    def methods_of(self, kind, name):
        """The methods of that name of a type, or of the traits that bound a parameter."""
        if kind is None:
            return None
        names = kind.bounds.get(kind.head(), [kind.head()])
        known = [it for it in (self.find(kind.file, each) for each in names) if it]
        found = [it for each in known for it in self.methods.get((*each, name), [])]
        if not found and known:
            found = [it for it in self.named[name] if it.owner == it.of_trait and any(self.has_trait(each, it.owner) for each in known)]
        return found if known or kind.head() else None

    def has_trait(self, known, trait):
        """Whether a type has a trait, or a trait stands on one."""
        crate, name = known
        file = next(it for it in self.files[crate] if name in it.types)
        kind, tokens, _ = file.types[name]
        if kind == "trait":
            return trait in tokens[: tokens.index("{")]
        return any(it.owner == name and it.of_trait == trait for it in self.functions if it.file.crate == crate)


class Body:
    """The calls of one function, and what is known of the types of its names."""

    def __init__(self, calls, function):
        self.all, self.of, self.tokens = calls, function, function.body
        self.file, self.names, self.found, self.matched = function.file, dict(function.params), [], None
        if function.owner:
            self.names["self"] = Type([function.owner], self.file, function.bounds)

    def calls(self):
        pending = []
        for at, token in enumerate(self.tokens):
            for place, names in [it for it in pending if it[0] <= at]:
                self.names.update(names)
            pending = [it for it in pending if it[0] > at]
            if token == "let":
                equals = next((it for it in range(at, len(self.tokens)) if self.tokens[it] == "="), at)
                kind, ends = self.chain(equals + 1, False)
                pending.append((ends, self.bound(self.tokens[at + 1 : equals], kind)))
            elif token == "for":
                middle = next((it for it in range(at, len(self.tokens)) if self.tokens[it] == "in"), at)
                kind, ends = self.chain(middle + 1, False)
                pending.append((ends, self.bound(self.tokens[at + 1 : middle], kind.inner() if kind else None)))
            elif token == "match":
                self.matched, _ = self.chain(at + 1, False)
            elif token == "=>" and self.matched:
                self.names.update(self.bound(self.pattern_before(at), self.matched))
            elif WORD.match(token) and self.tokens[at - 1 : at] not in ([["."], ["::"]] if at else []):
                self.chain(at, True)
        return self.found

    def pattern_before(self, at):
        """The pattern of an arm, without what is asked after `if`."""
        depth, place = 0, at - 1
        while place >= 0 and (depth or self.tokens[place] not in ("{", ",") and (self.tokens[place] != "}" or place == at - 1)):
            depth += self.tokens[place] in (")", "]", "}")
            depth -= self.tokens[place] in ("(", "[", "{")
            place -= 1
        pattern = self.tokens[place + 1 : at]
        return pattern[: pattern.index("if")] if "if" in pattern else pattern

    def bound(self, pattern, kind):
        """What the names of a pattern are, of a value of a type."""
        pattern = [it for it in pattern if it not in ("mut", "ref", "&")]
        if ":" in pattern and "{" not in pattern:
            at = pattern.index(":")
            return self.bound(pattern[:at], Type(pattern[at + 1 :], self.file, self.of.bounds))
        if kind is None or not pattern:
            return {}
        if len(pattern) == 1:
            return {pattern[0]: kind}
        if pattern[0] in WRAPS and pattern[1] == "(":
            return self.bound(pattern[2 : closing(pattern, 1)], kind.inner())
        if pattern[0] == "(":
            return {name: each for number, part in enumerate(split(pattern[1 : closing(pattern, 0)])) if kind.inner(number) for name, each in self.bound(part, kind.inner(number)).items()}
        opens = next((at for at, it in enumerate(pattern) if it in ("(", "{")), None)
        if opens is None:
            return {}
        shape = self.shape(kind, pattern[opens - 1])
        parts = split(pattern[opens + 1 : closing(pattern, opens)])
        if pattern[opens] == "(":
            return {name: it for part, each in zip(parts, shape or []) for name, it in self.bound(part, each[1]).items()}
        return {part[-1]: it for part in parts for name, it in shape or [] if name == part[0]}

    def shape(self, kind, variant=None):
        """The fields of a type, or of a variant of it: their names, where they have some, and their types."""
        known = self.all.find(kind.file, kind.head())
        file = known and next(it for it in self.all.files[known[0]] if known[1] in it.types)
        if not file:
            return None
        sort, tokens, bounds = file.types[known[1]]
        if sort == "trait":
            return None
        word = variant if sort == "enum" else known[1]
        at = next((it for it in range(3, len(tokens) - 1) if tokens[it] == word and tokens[it + 1] in ("(", "{")), None) if sort == "enum" else next((it - 1 for it, token in enumerate(tokens) if token in ("(", "{") and it > 1), None)
        if at is None:
            return None
        parts = split(tokens[at + 2 : closing(tokens, at + 1)])
        cut = [(part[part.index(":") - 1], part[part.index(":") + 1 :]) if ":" in part else (None, part) for part in parts]
        return [(name, Type(of, file, bounds)) for name, of in cut]

    def chain(self, at, noted):
        """The type of what begins at a place, and where it ends. Its calls are noted where that is wanted."""
        tokens = self.tokens
        while at < len(tokens) and tokens[at] in ("&", "mut", "*", "match", "(", "!", "return"):
            at += 1
        if at >= len(tokens) or not WORD.match(tokens[at]):
            return None, at + 1
        words = [tokens[at]]
        at += 1
        while at + 1 < len(tokens) and tokens[at] == "::":
            at = closing(tokens, at + 1) + 1 if tokens[at + 1] == "<" else at + 2
            words += [tokens[at - 1]] if WORD.match(tokens[at - 1]) else []
        kind = self.names.get(words[0]) if len(words) == 1 else None
        if tokens[at : at + 1] == ["("]:
            kind = self.called(words, noted)
            if words[-1] in WRAPS:
                kind, _ = self.chain(at + 1, False)
                kind = kind and Type(["Option", "<", *kind.tokens, ">"], kind.file, kind.bounds)
            at = closing(tokens, at) + 1
        elif tokens[at : at + 1] == ["{"] and words[-1][0].isupper():
            kind = Type([self.of.owner if words[0] == "Self" else words[0]], self.file, self.of.bounds)
            return kind, at
        return self.rest(kind, at, noted)

    def rest(self, kind, at, noted):
        """The same of what follows a beginning: fields, methods and question marks."""
        tokens = self.tokens
        while at < len(tokens) and tokens[at] in (".", "?", "["):
            if tokens[at] == "?":
                kind, at = kind and kind.inner(), at + 1
                continue
            if tokens[at] == "[":
                kind, at = kind and kind.inner(), closing(tokens, at) + 1
                continue
            name, at = tokens[at + 1], at + 2
            if tokens[at : at + 2] == ["::", "<"]:
                at = closing(tokens, at + 1) + 1
            if tokens[at : at + 1] != ["("]:
                kind = kind and next((of for field, of in self.shape(kind) or [] if field == name), None)
                continue
            found = self.methods(kind, name, noted)
            kind = (kind if not found and name in SAME else found[0].answer if found else None)
            if found and kind and kind.head() == "Self":
                kind = Type([found[0].owner], found[0].file, found[0].bounds)
            at = closing(tokens, at) + 1
        return kind, at

    def called(self, words, noted):
        """What a call by a path answers."""
        if len(words) > 1:
            owner = self.of.owner if words[-2] == "Self" else words[-2]
            found = self.all.methods_of(Type([owner], self.file, self.of.bounds), words[-1]) if owner and owner[0].isupper() else []
            found = found or self.all.free_functions(self.file, words)
        else:
            found = self.all.free_functions(self.file, words)
        self.found += [it for it in found if noted]
        if not found:
            return None
        answer = found[0].answer
        return Type([found[0].owner], found[0].file, found[0].bounds) if answer and answer.head() == "Self" else answer

    def methods(self, kind, name, noted):
        found = self.all.methods_of(kind, name)
        if found is None:
            alike = [it for it in self.all.named[name] if it.owner]
            found = alike if len({it.full for it in alike}) == 1 and name not in OF_STD else []
            if len(alike) > 1 and name not in OF_STD and noted:
                self.all.unseen.add(f"{self.of.full} calls {name}")
        self.found += [it for it in found if noted]
        return found


def longest(calls, first, last, without):
    """The longest chain from one function to another, or None. What goes in a circle is counted once."""
    known, above = {}, set()

    def beginning_with(it):
        if it is last:
            return [it]
        if it not in known:
            above.add(it)
            chains = [beginning_with(below) for below in calls.below(it) if below not in above and below.full not in without]
            above.discard(it)
            best = max((chain for chain in chains if chain), key=len, default=None)
            known[it] = best and [it, *best]
        return known[it]

    return beginning_with(first)


def crates_below(name):
    with open(f"{TOP}/crates.txt", encoding="utf-8") as text:
        lines = [it.partition("#")[0].partition(":") for it in text]
    uses = {words.split()[0]: below.split() for words, colon, below in lines if colon}
    found, left = [], [name]
    while left:
        crate = left.pop()
        if crate in uses and crate not in found:
            found.append(crate)
            left += uses[crate]
    return found


def main():
    parser = argparse.ArgumentParser(description=__doc__.split("\n\n")[0])
    parser.add_argument("names", metavar="FROM TO", nargs=2)
    parser.add_argument("--through", metavar="NAME", nargs="+", default=[])
    parser.add_argument("--without", metavar="NAME", nargs="+", default=[])
    parser.add_argument("--unseen", action="store_true", help="name the calls whose types are not known, and of which two functions have the name")
    given = parser.parse_args()
    calls = Calls(crates_below(given.names[0].partition("::")[0]))
    by_name = defaultdict(list)
    for it in calls.functions:
        by_name[it.full].append(it)
    stops = [given.names[0], *given.through, given.names[1]]
    for name in stops + given.without:
        if name not in by_name:
            sys.exit(f"no function has the name {name}")
    chain = by_name[stops[0]][:1]
    for name in stops[1:]:
        part = longest(calls, chain[-1], by_name[name][0], given.without)
        if part is None:
            sys.exit(f"no chain of calls leads from {chain[-1].full} to {name}")
        chain += part[1:]
    for it in chain:
        print("-" if hands_on(calls, it) else " ", it.full)
    print(f"{len(chain)} functions")
    if given.unseen:
        print("\n".join(sorted(calls.unseen)))


def hands_on(calls, it):
    """Whether a body is a call of one own function and nothing else."""
    return len(it.body) > 0 and ";" not in it.body and not {"match", "if", "for"} & set(it.body) and len(set(calls.edges[it])) == 1


if __name__ == "__main__":
    sys.setrecursionlimit(10_000)
    main()
