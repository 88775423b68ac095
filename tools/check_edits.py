#!/usr/bin/env python3
"""Checks that each edit of crates/*/must-fail and crates/*/wrong can be applied, with no proof, and that
each line of crates/*/wrong/TRIED has its edit.

  tools/check_edits.py [--log FILE] [CRATE ..]

Each `old` text has to stand exactly once in the file that its edit names; further pairs of an edit
apply to what the earlier ones made. A line `clause: NAME` says which clause of the contract refuses
the edit; each edit has one such line. It prints a line for each pair that does not apply, for each
line that is none of `file:`, `old:`, `new:` and `clause:`, for each edit with no line `clause:`, a
second or an empty one, and for a name that stands in both folders. In wrong/TRIED each line has the
name of an edit that is there, a sum, `by-search` or `by-an-answer`, and a clause.

FILE holds what `rt ci` or `rt must-fail CRATE ..` printed. Then each edit of which it has a line has to
be refused there, by the clause that it names: where the prover's goal ends in `-clause-NAME`, NAME is
what follows; a contract of one clause alone has the goals `returns..`, and its NAME is `returns`; of
any other goal NAME is its whole name, as `overflow_add-sum`.

The status is 1 where something is told.
"""
import argparse
import os
import re
import sys

import edit_files
from edit_files import TOP, clause_of


def faults_of(edit):
    """What is wrong with an edit."""
    folder, texts = f"{TOP}/crates/{edit.crate}", {}
    for file, old, new in edit.pairs:
        if file not in texts:
            path = f"{folder}/{file}"
            texts[file] = edit_files.text_of(path) if os.path.exists(path) else ""
        count = texts[file].count(old)
        if count != 1:
            yield f"{count} times in {file}: {old}"
        texts[file] = texts[file].replace(old, new, 1)
    for line in edit.text.splitlines():
        if line.strip() and not line.startswith(("file: ", "old: ", "new:", "clause:")):
            yield f"a line that is not read: {line}"
    olds = sum(line.startswith("old: ") for line in edit.text.splitlines())
    if not edit.pairs or olds != len(edit.pairs):
        yield f"{olds} lines `old:`, {len(edit.pairs)} of which have a file and a `new:`"
    if len(edit.clauses) != 1:
        yield f"{len(edit.clauses)} lines `clause:`"
    if "" in edit.clauses:
        yield "a line `clause:` with no name"


def faults_in_tried(crate, edits):
    """What is wrong with a crate's file wrong/TRIED."""
    path = f"{TOP}/crates/{crate}/wrong/TRIED"
    lines = edit_files.text_of(path).splitlines() if os.path.exists(path) else []
    names = {it.name for it in edits}
    for line in lines:
        name, _, rest = line.partition(" ")
        if name not in names:
            yield f"there is no edit for the line: {line}"
        elif not re.fullmatch(r"[0-9a-f]{32} by-(search|an-answer) \S+", rest):
            yield f"not a line as tools/try_edits.py writes it: {line}"
    told = [it.partition(" ")[0] for it in lines]
    yield from (f"{told.count(it)} lines of one edit: {it}" for it in sorted({*told}) if told.count(it) > 1)


def refusals_in(log):
    """By each edit, as CRATE/NAME.edit, the line of the log that tells what became of it."""
    with open(log, encoding="utf-8", errors="replace") as lines:
        told = re.findall(r"^rt: must-fail (\S+\.edit): (.*)$", lines.read(), re.MULTILINE)
    return dict(told)


def faults_in(edit, line):
    """What is wrong with an edit of which a log has this line."""
    if not line.startswith("refused"):
        yield f"not refused: {line}"
        return
    clauses = edit.clauses
    goals = re.findall(r"`([A-Za-z_][^\s`]*)`", line)
    by = [clause_of(goal) for goal in goals]
    # the log cuts long lines, and the name of a goal with them
    cut = re.search(r"\(`([A-Za-z_][^\s`]*)$", line)
    if clauses and clauses[0] not in by and not (cut and clauses[0].startswith(clause_of(cut[1]))):
        yield f"not refused by {clauses[0]}: {line}"


def main():
    parser = argparse.ArgumentParser(description=__doc__.split("\n\n")[0])
    parser.add_argument("--log", metavar="FILE", help="what `rt ci` or `rt must-fail` printed")
    parser.add_argument("crates", metavar="CRATE", nargs="*")
    args = parser.parse_args()
    refusals = refusals_in(args.log) if args.log else {}
    told = tried = count = 0
    for crate in args.crates or sorted(os.listdir(f"{TOP}/crates")):
        edits = edit_files.edits_of(crate)
        count += len(edits)
        found = [(f"crates/{crate}/wrong/TRIED", it) for it in faults_in_tried(crate, edits)]
        names = [it.name for it in edits]
        found += [(f"crates/{crate}", f"{it} stands in both folders") for it in sorted({*names}) if names.count(it) > 1]
        for edit in edits:
            faults, line = list(faults_of(edit)), refusals.get(f"{crate}/{edit.name}")
            if line is not None:
                tried += 1
                faults += faults_in(edit, line)
            found += [(os.path.relpath(edit.path, TOP), it) for it in faults]
        for path, fault in found:
            print(f"{path}: {fault}")
        told += len(found)
    print(f"{count} edits, {told} faults" if told else f"{count} edits, all apply and name a clause")
    if args.log:
        print(f"{tried} are told of in {args.log}")
    return 1 if told else 0


if __name__ == "__main__":
    sys.exit(main())
