#!/usr/bin/env python3
"""Checks that the examples of the pages at the top and in docs/ are run, with no proof.

  tools/check_docs.py

Of each block of code:
  - lines `$ out/uffs ..` with what they write have to stand, as `$` lines, in a row of
    crates/rows/data that crates/rows/args names;
  - lines of a script with their replies, two spaces or more between, as `>` and `<` lines;
  - lines of a row, or of an edit, have to stand in a row, or in an edit;
  - Rust, and definitions, have to stand in source files of crates/, part by part;
  - lines that are written alone have to be the stdout of a program of the gate;
  - all else has to be named in docs/testing.md, by its first line, in backticks.
Of each table whose columns are those of a program of the gate, as it prints them: each row has to stand
in its stdout under the same name, with the same figures. A table that has two of its columns and others is
wrong. Each row that the program prints has to stand in a table, or is named in NOT_SHOWN.
The table of what refusals mean has to be that of the row explain_refusals.row. Of tables that tell where a test
stands: each row of crates/rows and crates/host_rows that they name has to run, and each function to be there.
The table beside littlefs has to be as crates/operations/stdout and tools/littlefs/counts come to.
Of sentences with sums of such figures, or with counts of what stands in crates/: they have to be as sums() makes them.
Of each link: what it leads to has to be there, the section too. A page that is named has to be a link,
and a page of over 1,500 words begins with a list of its sections. No page has over 4,000 words, and
README.md no more than 1,600; docs/proved.md and docs/api.md, which a script writes, may. These have to be as
tools/write_proved.py writes them, the man page and the completion as tools/write_manual.py does, the pictures as
tools/draw_pictures.py does, and what the comments of calls say of their cost as crates/operations prints it.
It prints a line for each that does not; its status is 1 where there is one.
"""
import functools
import glob
import os
import re
import sys

import draw_pictures
import write_manual
import write_proved

TOP = os.path.dirname(os.path.dirname(os.path.abspath(__file__)))
SHELL = re.compile(r"^\$ (?:(?:printf|echo) '([^']*)' \| )?out/uffs (.*)$")
LINK = re.compile(r"\[([^\]]*)\]\(([^)\s]+)\)")
PAGE = re.compile(r"(?:docs/)?[A-Za-z_]+\.md\b")
LONG = 1500
MOST = {"README.md": 1600, "docs/proved.md": None, "docs/api.md": None}
COST = re.compile(r"^\s*/// Cost: (.*): (\d+) reads, (\d+) programs, (\d+) erases\.$", re.M)
FUNCTION = re.compile(r"( *)(?:pub(?:\(\w+\))? )?(?:const |final )*fn ")
# The columns of the table of single calls that crates/operations prints, and of the table beside littlefs.
MEASURED = ["nodes", "cold", "warm", "programs", "erases", "blank"]
BESIDE = ["undofs pages", "undofs blocks", "littlefs pages", "littlefs blocks"]
EXPLAINED = ["Word", "What it means, as uffs explain tells it"]
# The rows of stored tables that no page shows.
NOT_SHOWN = {
    "pwrite of a byte into an empty file", "pwrite of 2 bytes, second of three nodes", "ls of a directory, depth 16",
    "stat of a directory, depth 16", "ls of a directory, depth 4", "ls at depth 4 after a pread of 1 MiB",
    "pread of 1 MiB, a second time", "begin", "end of a group with four changes", "abandon of a group with four changes",
    "sync of a record of two pages", "format", "mkdir and rmdir at depth 8, page 2048",
    "4,096 bytes of 1 MiB, in turn, page 2048", "512 bytes of 1 MiB, in turn, page 2048",
    "pread of 1 byte at 64 places, page 2048", "pread of 512 bytes at 64 places, page 2048",
}
REPLY = re.compile(r"^(ok|done|more|mounted|unmounted|err [A-Z0-9]+( \d+)?|(entries|fd|data|wrote|dir|file|log|df) .*)$")


def read(path):
    with open(path, encoding="utf-8") as text:
        return text.read()


def texts(pattern):
    """The files that fit a pattern, below the top, but what a check made."""
    found = glob.glob(f"{TOP}/{pattern}", recursive=True)
    return {p: read(p) for p in sorted(found) if "/out/" not in p and os.path.isfile(p)}


def blocks(text):
    """The blocks of code of a page: the number of the first line, and the lines."""
    lines = text.split("\n")
    at = 0
    while at < len(lines):
        end = at + 1
        if lines[at].startswith("```"):
            while not lines[end].startswith("```"):
                end += 1
            yield at + 2, lines[at + 1 : end]
            end += 1
        elif lines[at].startswith("    ") and (at == 0 or not lines[at - 1].strip()):
            while end < len(lines) and (lines[end].startswith("    ") or not lines[end].strip()):
                end += 1
            block = [line[4:] for line in lines[at:end]]
            while not block[-1].strip():
                block.pop()
            yield at + 1, block
        at = end


def as_session(block):
    """The lines of a row for calls of the program, or none where a block has other lines."""
    if not block[0].startswith("$ out/uffs ") and not SHELL.match(block[0]):
        return None
    row = []
    for line in block:
        call = SHELL.match(line)
        if call:
            row.append("$ " + re.sub(r"\S*/\S+\.image", "IMAGE", call.group(2)))
            script = (call.group(1) or "").replace("\\n", "\n")
            row += [f"$< {asked}" for asked in script.splitlines()]
        elif line.startswith("$ "):
            return None
        else:
            row.append(f"$> {line}")
    return row


def as_script(block):
    """The lines of a row for lines of a script with their replies, or none where a block has others."""
    row = []
    for line in block:
        parts = re.split(r" {2,}", line.strip())
        if len(parts) < 2 or not REPLY.match(parts[1]):
            return None
        row += [f"> {parts[0]}", f"< {parts[1]}"]
    return row


def rows_that_run():
    """The rows that the gate runs, without the lines that say why a side leaves one out."""
    named = read(f"{TOP}/crates/rows/args").split()
    for name in named:
        lines = read(f"{TOP}/crates/rows/data/{name}").splitlines()
        yield "\n".join(l for l in lines if not re.match(r"(plain|flash) (skips|waits for): ", l)) + "\n"


def is_run(block, sources):
    """Whether a block stands in what the gate runs, reads or is told."""
    text = "\n".join(block) + "\n"
    for row in (as_session(block), as_script(block)):
        if row is not None:
            return any("\n".join(row) + "\n" in known for known in sources["rows"])
    told = sources["rows"] + sources["outputs"] + sources["edits"] + sources["c"]
    return any(text in known for known in told) or all(is_code(part, sources["code"]) for part in text.split("\n\n"))


def is_code(part, code):
    """Whether lines stand in a source file, with any indentation before all of them."""
    lines = part.rstrip("\n").split("\n")
    indented = ("".join(f"{margin}{line}\n" for line in lines) for margin in ("", "    ", "        "))
    return any(one in known for one in indented for known in code)


def stored_tables():
    """The tables that programs of the gate print: the names of the columns, and the figures of each row by its name."""
    for output in texts("crates/*/stdout").values():
        for table in output.split("\n\n"):
            header, *lines = table.strip("\n").split("\n")
            columns = re.split(r" {2,}", header.strip())[1:]
            if columns:
                yield columns, list(rows_of(lines, len(columns)))


def rows_of(lines, count):
    """The rows of a table with so many figures."""
    for line in lines:
        parts = line.rsplit(None, count)
        if len(parts) == count + 1:
            yield parts[0].strip(), parts[1:]


def prose(text):
    """The lines of a page that stand in no block of code, with their numbers."""
    lines = text.split("\n")
    coded = set()
    for first, block in blocks(text):
        coded.update(range(first, first + len(block)))
    return [(number, line) for number, line in enumerate(lines, 1) if number not in coded]


def cells_of(line):
    return [cell.strip().replace("`", "") for cell in line.strip().strip("|").split("|")]


def tables(text):
    """The tables of a page: the names of the columns after the first, and each row with the number of its line."""
    columns, rows = None, []
    for number, line in [*prose(text), (0, "")]:
        if not line.startswith("|"):
            if columns:
                yield columns, rows
            columns, rows = None, []
        elif columns is None:
            columns = cells_of(line)[1:]
        elif not line.startswith("|--"):
            rows.append((number, cells_of(line)))


def wrong_figures(text, stored):
    """The lines of tables that tell other figures than the gate has."""
    for columns, rows in tables(text):
        fitting = [(known, found) for known, found in stored if columns and set(columns) <= set(known)]
        if not fitting:
            if rows and any(len(set(columns) & set(known)) > 1 for known, _ in stored):
                yield rows[0][0] - 2, f"a table with columns that no program prints: {', '.join(columns)}"
            continue
        known_rows = [(name, [figures[known.index(it)] for it in columns]) for known, found in fitting for name, figures in found]
        for number, (name, *figures) in rows:
            if (name, [it.replace(",", "") for it in figures]) not in known_rows:
                yield number, f"figures that no program of the gate prints: {name}"


def shown_figures(text, known):
    """The names in tables with these columns, or some of them, each with the figures that it has."""
    for columns, rows in tables(text):
        if columns and set(columns) <= set(known):
            yield from ((name, tuple(sorted(zip(columns, (it.replace(",", "") for it in figures))))) for _, (name, *figures) in rows)


def not_shown(pages, stored):
    """What is wrong with which rows of stored tables stand in no table of these pages."""
    for known, found in stored:
        shown = {it for text in pages for it in shown_figures(text, known)}
        for name, figures in found:
            row = dict(zip(known, figures))
            key = f"{name}, page {row['page']}" if row.get("page", "256") != "256" else name
            is_shown = any(it == name and all(row[column] == told for column, told in some) for it, some in shown)
            if is_shown == (key in NOT_SHOWN):
                yield f"in a table, and named in NOT_SHOWN: {key}" if is_shown else f"in no table: {key}"


def wrong_explanations(text):
    """The lines of the table of refusals that `uffs explain` prints otherwise, and those that are left out."""
    told = set(re.findall(r"^\$> ([A-Z]+ \d+: .*)$", read(f"{TOP}/crates/rows/data/explain_refusals.row"), re.M))
    lines = text.split("\n")
    for number in [number for columns, rows in tables(text) if columns == EXPLAINED for number, _ in rows]:
        cells = re.fullmatch(r"\| (\d+) \| ([A-Z]+) \| (.*) \|", lines[number - 1])
        if cells:
            meant = f"{cells[2]} {cells[1]}: {LINK.sub(lambda link: link[1], cells[3])}"
            if meant not in told:
                yield number, f"not as uffs explain tells it: {meant}"
            told.discard(meant)
    yield from ((1, f"left out of the table of refusals: {it}") for it in sorted(told))


def wrong_places(text):
    """The lines of tables of tests that name a row that does not run, or a function that is not there."""
    run = [name.partition(".")[0] for crate in ("rows", "host_rows") for name in read(f"{TOP}/crates/{crate}/args").split()]
    for columns, rows in tables(text):
        for number, (_, *cells) in rows if columns == ["Where it stands"] else []:
            place = text.split("\n")[number - 1].split("|")[2] if cells else ""
            for name in re.findall(r"`(\w+)(?:\.row)?`", place):
                if name not in run and not os.path.isdir(f"{TOP}/crates/{name}") and not is_case(name):
                    yield number, f"no row of the gate: {name}"
            for crate, file, function in re.findall(r"`(\w+)/(\w+)` (\w+)", place):
                path = f"{TOP}/crates/{crate}/src/{file}.rt"
                if not os.path.isfile(path) or f"fn {function}(" not in read(path):
                    yield number, f"no test: {crate}/{file} {function}"


def is_case(name):
    """Whether it is a case of a script."""
    return any(f"def {name}(" in read(path) for path in [*glob.glob(f"{TOP}/tools/check_*.py"), f"{TOP}/tools/host_cases.py"])


def anchor(heading):
    """The name of a section in a link."""
    return re.sub(r"[^\w\- ]", "", heading.lower()).replace(" ", "-")


@functools.cache
def headings(text):
    return [line.lstrip("#").strip() for _, line in prose(text) if re.match(r"#+ ", line)]


def wrong_links(page, text):
    """The lines with a link that leads nowhere, or with the name of a page that is no link."""
    for number, line in prose(text):
        for _, target in LINK.findall(line):
            if "://" in target:
                continue
            path, _, section = target.partition("#")
            found = os.path.normpath(os.path.join(os.path.dirname(page), path)) if path else page
            if not os.path.exists(found):
                yield number, f"a link to nothing: {target}"
            elif section and section not in [anchor(it) for it in headings(read(found))]:
                yield number, f"a link to no section: {target}"
        for name in PAGE.findall(LINK.sub("", line)):
            if os.path.isfile(f"{TOP}/{name}") and f"{TOP}/{name}" != page:
                yield number, f"a page that is no link: {name}"


def missing_sections(text):
    """The sections that a long page does not list."""
    linked = [target for _, line in prose(text) for _, target in LINK.findall(line)]
    parts = [line[3:].strip() for _, line in prose(text) if line.startswith("## ")]
    if len(text.split()) > LONG:
        yield from (f"not in its list of sections: {it}" for it in parts if f"#{anchor(it)}" not in linked)


def summed(name, pattern):
    """The sums of the figures that a pattern finds in the stored output of a program, after how many lines it fits."""
    found = re.findall(pattern, read(f"{TOP}/crates/{name}/stdout"), re.M)
    rows = [[int(it) for it in (row if isinstance(row, tuple) else (row,))] for row in found]
    return [len(rows), *(sum(column) for column in zip(*rows))]


def bodies_in(text):
    """The functions of a source file that have a body: how many clauses the contract has, and how many lines the body."""
    margin, clauses, first = None, 0, None
    for number, line in enumerate(text.split("\n")):
        found = FUNCTION.match(line)
        if found and first is None:
            margin, clauses = found[1], 0
        if margin is None:
            continue
        if first is not None and line == margin + "}":
            yield clauses, number - first - 1
            margin, first = None, None
        elif first is None:
            clauses += bool(re.match(rf"{margin}    (requires|ensures)\b", line))
            first = number if re.match(rf"{margin}(\{{|\S.* \{{)$", line) else None


@functools.cache
def sums():
    """The sentences with sums or counts, by their pages."""
    scripts = len(set(re.findall(r"^(\S+)\.row.*: \d+ runs", read(f"{TOP}/crates/fault_trials/stdout"), re.M)))
    _, runs = summed("fault_trials", r"^\S+\.row.*: (\d+) runs, \d+ cuts$")
    readers, reads = summed("fault_trials", r": (\d+) reads failed")
    writers, programs, erases = summed("fault_trials", r": (\d+) programs and (\d+) erases failed$")
    told = read(f"{TOP}/crates/hostile_images/stdout").splitlines()
    kinds = [re.findall(r"(\d+) (?:mounted|[A-Z]+|no image)", line) for line in told if " mounted, " in line]
    images, mounted = sum(int(n) for kind in kinds for n in kind), sum(int(kind[0]) for kind in kinds)
    version = re.search(r'VERSION: &str = "([^"]+)"', read(f"{TOP}/crates/command_words/src/grammar.rt"))[1]
    crates = len([it for it in os.listdir(f"{TOP}/crates") if os.path.isdir(f"{TOP}/crates/{it}/src")])
    edits = len(glob.glob(f"{TOP}/crates/*/must-fail/*.edit") + glob.glob(f"{TOP}/crates/*/wrong/*.edit"))
    bodies = [it for text in texts("crates/*/src/**/*.rt").values() for it in bodies_in(text)]
    long, wide = sum(lines >= 40 for _, lines in bodies), sum(clauses > 12 for clauses, _ in bodies)
    return {
        "README.md": [f"of {scripts} scripts, in {runs:,} runs"],
        "docs/testing.md": [
            f"of {scripts} scripts, in {runs:,} runs",
            f"Each of {reads:,} reads of {readers} scripts fails once",
            f"each of {programs} programs and {erases} erases of {writers}",
            f"Of {images:,} hostile images {mounted:,} mount",
        ],
        "CHANGELOG.md": [f"## {version} "],
        "CONTRIBUTING.md": [f"{long} functions have 40 lines or more", f"{wide} contracts have more than 12 clauses"],
        "docs/gate.md": [f"There are {crates} crates", f"and {edits} edits"],
    }


def missing_sums(page, text):
    """The sentences with sums that a page does not have."""
    words = " ".join(text.split())
    yield from (f"not as the gate has it: {it}" for it in sums().get(page, []) if it not in words)


def wrong_costs():
    """The costs in comments of calls that `operations` does not print so."""
    row = re.compile(r"^(.+?) {2,}\d+ +(\d+) +\d+ +(\d+) +(\d+) +\d+$", re.M)
    printed = {name: figures for name, *figures in reversed(row.findall(read(f"{TOP}/crates/operations/stdout")))}
    return [name for name, *figures in COST.findall(read(write_proved.CALLS)) if printed.get(name) != figures]


def wrong_beside(text):
    """The lines of the table beside littlefs that the counts do not come to: a sync is a page, and an erase in sixteen."""
    own = {name: figures for known, found in stored_tables() if known == MEASURED for name, figures in found}
    counted = re.findall(r"^(.+?) {2,}\d+ +([\d.]+) +([\d.]+)$", read(f"{TOP}/tools/littlefs/counts"), re.M)
    others = {name: figures for name, *figures in counted}
    for columns, rows in tables(text):
        for number, (name, *figures) in rows if columns == BESIDE else []:
            _, _, _, programs, erases, _ = own.get(name, "000000")
            wanted = [str(int(programs) + 1), f"{int(erases) + 1 / 16:.2f}", *others.get(name, [])]
            if figures != wanted:
                yield number, f"not as the counts come to: {name}"


def too_long(page, text):
    """How many words a page has, where they are too many."""
    count, most = len(text.split()), MOST.get(page, 4000)
    if most and count > most:
        yield f"{count} words, over {most}"


def main():
    sources = {
        "rows": list(rows_that_run()),
        "outputs": list(texts("crates/*/stdout").values()),
        "edits": [*texts("crates/*/must-fail/*.edit").values(), *texts("crates/*/wrong/*.edit").values()],
        "code": [*texts("crates/*/src/**/*.rt").values(), *texts("crates/*/specs/**/*.antt").values()],
        "c": list(texts("tools/c/*").values()),
    }
    told_of = read(f"{TOP}/docs/testing.md")
    pages = [*(f"{TOP}/{it}.md" for it in ("README", "CONTRIBUTING", "CHANGELOG", "SECURITY")), *sorted(glob.glob(f"{TOP}/docs/*.md"))]
    stored = list(stored_tables())
    count, told = 0, 0
    for page in pages:
        text = read(page)
        name = os.path.relpath(page, TOP)
        whole = [*missing_sections(text), *missing_sums(name, text), *too_long(name, text)]
        wrong = [*wrong_figures(text, stored), *wrong_links(page, text), *wrong_places(text), *((1, it) for it in whole)]
        wrong += wrong_beside(text)
        if name == "docs/scripts.md":
            wrong += wrong_explanations(text)
        for number, block in blocks(text):
            count += 1
            if not is_run(block, sources) and f"`{block[0].strip()}`" not in told_of:
                wrong.append((number, f"not run, and not named in docs/testing.md: {block[0].strip()}"))
        for number, what in sorted(wrong):
            print(f"{name}:{number}: {what}")
        told += len(wrong)
    for what in not_shown([read(page) for page in pages], stored):
        print(what)
        told += 1
    for name in write_proved.stale():
        print(f"{name} is not as tools/write_proved.py writes it")
        told += 1
    for cost in wrong_costs():
        print(f"not as crates/operations prints it: {cost}")
        told += 1
    for name in draw_pictures.stale():
        print(f"{name} is not as tools/draw_pictures.py writes it")
        told += 1
    for name in write_manual.stale():
        print(f"{name} is not as tools/write_manual.py writes it")
        told += 1
    print(f"{count} blocks, {told} faults" if told else f"{count} blocks, all run or named; tables and links as they should be")
    return 1 if told else 0


if __name__ == "__main__":
    sys.exit(main())
